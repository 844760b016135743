#include <stdio.h>
void put(int c){putchar(c);}
