#define TWICE(x) (2 * (x))
#define SUM(a, b) ((a) + (b))
#define SIZE (4 + 1)
#define MINUS -1
#define CALL(f, x) f(x)
#define AT(row, i) row[i]
#define NAME(x, y) x##y
#define SET(place, value) place = (value)
#define EACH(i, n) for (int i = 0; i < (n); i++)
#define PAIR 1, 2
#define WORD unsigned int
#define NEGATED (int)-1
#define STEP(x) x++
#define ID(x) x

static WORD twice(WORD x) { return 2 * x; }

int main(void) {
    int row[2] = { PAIR };
    int NAME(a, b) = 0;
    EACH(i, 2)
        SET(ab, ab + AT(row, i));
    STEP(ab);
    return TWICE(1) + SUM(2, 3) + SIZE + MINUS + (int)CALL(twice, 4u) + ab + NEGATED + ID(7);
}
