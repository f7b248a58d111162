/* 2: 714 limit: function weight */ 
int main(void) { char a[1048576]; return 0; }
