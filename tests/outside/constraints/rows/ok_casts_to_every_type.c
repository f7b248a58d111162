int main(void) {
    (void)1;
    (void)(const int)2;
    return (int)(char)256 + (_Bool)2 + (signed char)-1 + (int)(unsigned)0 + (short)65536 + (int)(unsigned long)0;
}
