void v(void) { }
int main(void) { switch (v()) { default: ; } return 0; }
