int main(void) { return (int)(sizeof(char) + sizeof(_Bool) + sizeof(short) + sizeof(int) + sizeof(long) + sizeof(unsigned) + sizeof(long) - sizeof(signed long) + sizeof(int)); }
