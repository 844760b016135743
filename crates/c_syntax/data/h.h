#define N 3
typedef int T;
