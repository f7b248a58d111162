int main(void) { unsigned long a = 4294967295ul; return a + 1 == 0; }
