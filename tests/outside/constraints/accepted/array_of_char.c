int main(void) { unsigned char a[2] = {255, 255}; return a[0] + a[1] - 256; }
