int main(void) { return main; }
