int main(void) { static char a[1048576]; return a[0]; }
