int main(void) { { char a[524176]; } { char b[524176]; } return 0; }
