#ifndef H
#define H
#define ONE 1
int f(void);
#endif
