int main(void) { return (_Bool)0x100; }
