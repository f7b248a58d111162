int main(void) { int n = 5; switch (n++) { } return n - 1; }
