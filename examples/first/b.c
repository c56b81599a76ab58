void g(void) { }
