void f(void) { if (1) return; return; }
void g(void) { }
_Bool h(void) { return 256; }
int k(void) { }
int main(void) { f(); g(); k(); return h() - 1; }
