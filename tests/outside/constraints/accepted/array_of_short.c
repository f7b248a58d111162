int main(void) { short a[2] = {70000, -70000}; return a[0] + a[1] == 0; }
