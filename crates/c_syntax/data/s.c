int f(void) { goto a; a: return 0; }
