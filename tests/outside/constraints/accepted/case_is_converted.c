int main(void) { unsigned a = 4294967295u; switch (a) { case -1: return 3; } return 4; }
