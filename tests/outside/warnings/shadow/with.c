static int total;
enum { limit = 3 };

static int add(int total) { return total + 1; }

int main(void) {
    int i = limit;
    for (int i = 0; i < 2; i++)
        total += add(i);
    {
        int limit = 4;
        total += limit;
    }
    return total + i;
}
