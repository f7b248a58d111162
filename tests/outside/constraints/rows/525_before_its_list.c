int y;
const
enum e x;
enum e { A };
int main(void) { return 0; }
