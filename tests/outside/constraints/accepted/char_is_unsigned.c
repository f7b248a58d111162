int main(void) { char c = 255; return c == 255; }
