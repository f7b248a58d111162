/* 1: 551 no int main(void) */
