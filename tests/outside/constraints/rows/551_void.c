
void main(void) { }
