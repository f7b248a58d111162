int main(void) { switch (1) { case 1: switch (2) { case 1: return 11; case 2: return 12; } case 2: return 13; } return 14; }
