int a[2] = {
    1,
    {
    {2}}};
int main(void) { return 0; }
