#include <stddef.h>
#include "h.h"
size_t f(T a) { return a + N; }
