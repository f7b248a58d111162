int main(void) { re\
turn 0; }
