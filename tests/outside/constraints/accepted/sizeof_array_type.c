int main(void) { return sizeof(short[3][4]); }
