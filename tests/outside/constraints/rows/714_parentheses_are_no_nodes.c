int main(void) { char a[1048401]; return ((-1)); }
