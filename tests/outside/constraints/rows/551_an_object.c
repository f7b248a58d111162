
int main;
