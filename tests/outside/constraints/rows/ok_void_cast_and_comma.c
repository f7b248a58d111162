void v(void) { }
int main(void) { (void)v(); (void)(v(), v()); v(), v(); (void)1, (void)2; return 0; }
