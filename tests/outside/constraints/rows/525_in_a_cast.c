int main(void) { return (enum e)0; }
