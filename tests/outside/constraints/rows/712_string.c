#define P "0123456789abcdef"
#define Q P P P P P P P P P P P P P P P P
#define R Q Q Q Q Q Q Q Q Q Q Q Q Q Q Q Q
#define S R R R R R R R R R R R R R R R R
#define T S S S S S S S S S S S S S S S S
#define U T
int main(void) {
    return
        (int)sizeof
            U;
}
