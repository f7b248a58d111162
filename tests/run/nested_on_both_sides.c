int main(void) { return (((7))) - ((2) - (1)); }
