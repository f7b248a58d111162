const int;
int main(void) { return 0; }
