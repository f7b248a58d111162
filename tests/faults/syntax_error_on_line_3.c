/* 3: 401 syntax error */ int main(void)
{
return return 0; }
