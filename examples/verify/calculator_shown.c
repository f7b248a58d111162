/* Calculates a line, without recursion: what waits for its right side stands on a stack, and what finds no room there is left out. */
#include <rvio.h>

enum { ROOM = 32 };

static unsigned waiting[ROOM];
static int operators[ROOM];
static unsigned top;

static unsigned magnitude(unsigned n) { return n > 2147483647 ? -n : n; }

static unsigned quotient(unsigned left, unsigned right)
{
    unsigned divisor = magnitude(right);
    if (divisor == 0)
        return 0;
    unsigned result = magnitude(left) / divisor;
    return (left > 2147483647) == (right > 2147483647) ? result : -result;
}

static unsigned apply(int operator, unsigned left, unsigned right)
{
    switch (operator) {
    case '+': return left + right;
    case '-': return left - right;
    case '*': return left * right;
    case '/': return quotient(left, right);
    default: return right;
    }
}

static int rank(int operator)
{
    switch (operator) {
    case '*': case '/': return 2;
    case '+': case '-': return 1;
    default: return 0;
    }
}

static void push(int operator, unsigned value)
{
    if (top < ROOM) {
        operators[top] = operator;
        waiting[top++] = value;
    }
}

/* The value, once what waits and binds at least so tightly is applied. */
static unsigned reduced(unsigned value, int least)
{
    while (top > 0 && rank(operators[top - 1]) >= least) {
        top--;
        value = apply(operators[top], waiting[top], value);
    }
    return value;
}

static void write_number(unsigned n)
{
    if (n > 2147483647)
        rv_putbyte('-');
    n = magnitude(n);
    for (unsigned place = 1000000000; place > 0; place /= 10)
        if (n >= place || place == 1)
            rv_putbyte('0' + (int)(n / place % 10));
}

int main(void)
{
    unsigned value;
    int c = rv_getbyte();
    for (;;) {
        for (; c == '('; c = rv_getbyte())
            push('(', 0);
        for (value = 0; c >= '0' && c <= '9'; c = rv_getbyte())
            value = value * 10 + (unsigned)(c - '0');
        for (; c == ')'; c = rv_getbyte()) {
            value = reduced(value, 1);
            if (top > 0)
                top--;
        }
        if (rank(c) == 0)
            break;
        value = reduced(value, rank(c));
        push(c, value);
        c = rv_getbyte();
    }
    write_number(reduced(value, 0));
    rv_putbyte('\n');
    return 0;
}
