int main(void) { return sizeof(char[1048576]) != 1048576; }
