int f(char c) { char a[1048396]; return 0; }
int main(void) { return 0; }
