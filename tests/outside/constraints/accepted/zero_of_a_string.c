int main(void) { return "abc"[3]; }
