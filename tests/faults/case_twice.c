/* 1: 540 case or default twice */ int main(void) { switch (1) { case 1: case 2 - 1: return 0; } return 1; }
