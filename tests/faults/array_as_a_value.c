/* 1: 620 left out: array or function as a value */ int a[2]; int main(void) { return a; }
