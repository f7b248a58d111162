int main(void) { return (int)main; }
