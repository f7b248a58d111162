int main(void) { return y; }
int y;
