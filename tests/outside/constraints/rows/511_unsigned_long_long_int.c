unsigned long long int x;
int main(void) { return 0; }
