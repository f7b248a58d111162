int main(void) { { char a[524176]; } { char b[524177]; } return 0; }
