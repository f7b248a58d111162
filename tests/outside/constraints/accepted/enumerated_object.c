enum color { RED, GREEN, BLUE };
int main(void) { enum color c = GREEN; return c; }
