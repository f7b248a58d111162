static int total;
enum { limit = 3 };

static int add(int amount) { return amount + 1; }

int main(void) {
    for (int i = 0; i < 2; i++)
        total += add(i);
    for (int i = 0; i < limit; i++) {
        int add = i;
        total += add;
    }
    return total;
}
