void rv_exit(long status);
int main(void) { return 0; }
