#include "h.h"
#define TWO ONE + ONE /* a macro */
int a = TWO;
#if TWO * 3 == 4 && defined ONE
const char *s = "it's \n"; // a comment
#endif
