/* 1: 621 left out: reversed subscript */ int a[2]; int main(void) { return 0[a]; }
