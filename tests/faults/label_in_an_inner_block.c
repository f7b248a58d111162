/* 1: 623 left out: label not directly in its switch */ int main(void) { switch (1) { { case 1: ; } } return 0; }
