int main(void) { unsigned a = 0; a--; return a == 4294967295u; }
