int main(void) { return "ab" "cd"[3]; }
