
int main(void);
