int main(void) { char s[] = {"a"}; return sizeof s; }
