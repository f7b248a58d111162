int main(void) { re\
turn 3 + \
4; }
