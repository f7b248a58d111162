int main(void) { return 0X7Fffffff - 0x7FFFFFFE; }
