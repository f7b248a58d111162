/* 2: 113 comment not closed */ int main(void) {
/* return 0; }

