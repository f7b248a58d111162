int main(void) { return "abc"[1]; }
