int f(void) { default: return 0; }
int main(void) { switch (1) { default: return f(); } }
