static int count;

void two(void) { count += 2; }
