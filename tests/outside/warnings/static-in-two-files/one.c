static int count;

void one(void) { count++; }
