int main(void) { unsigned a = 4026531840u; return (int)(a >> 28); }
