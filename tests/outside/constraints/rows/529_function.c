int main(void) { return main[0]; }
