void g(void);
void f(void) { f(); g(); }
