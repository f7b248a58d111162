/* 1: 601 left out: float, double, _Complex, _Imaginary */ double x; int main(void) { return 0; }
