enum x { A = 3 };
int main(void) { int x = A; return x; }
