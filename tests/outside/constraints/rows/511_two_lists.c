enum e { A } enum f { B } x;
int main(void) { return 0; }
