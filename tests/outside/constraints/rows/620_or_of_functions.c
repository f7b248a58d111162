int main(void) { return main || 1; }
