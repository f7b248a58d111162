/* A console: reads commands, a line each, from the serial line, and answers them until quit or the input's end. */
#include <rvio.h>

enum { CELLS = 10, LONGEST = 60 };

static char line[LONGEST + 1];      /* the line that was read, and a zero behind it */
static unsigned at;                 /* as far as it was looked at */
static unsigned number;             /* the last number that was read */
static unsigned cells[CELLS];
static unsigned lines;

/* A letter of the line, and a zero where it has none. */
static char letter(unsigned place)
{
    return place < LONGEST ? line[place] : 0;
}

static void say(const char text[], int length)
{
    for (int k = 0; k < length; k++)
        rv_putbyte(text[k]);
}

static void say_number(unsigned n)
{
    for (unsigned place = 1000000000; place > 0; place /= 10)
        if (n >= place || place == 1)
            rv_putbyte('0' + (int)(n / place % 10));
    rv_putbyte('\n');
}

/* The next byte, without the LF behind a CR: both together end one line. */
static int read_byte(void)
{
    static int last;
    int c = rv_getbyte();
    if (c == '\n' && last == '\r')
        c = rv_getbyte();
    last = c;
    return c;
}

/* A line, up to its end; what is too long for it is dropped. Answers 0 at the input's end. */
static int read_line(void)
{
    int length = 0;
    int c;
    at = 0;
    while ((c = read_byte()) != -1 && c != '\r' && c != '\n')
        if (c == '\b' || c == 127)
            length = length > 0 ? length - 1 : 0;
        else if (length < LONGEST)
            line[length++] = c;
    line[length] = 0;
    return c != -1 || length > 0;
}

static void skip_spaces(void)
{
    while (letter(at) == ' ')
        at++;
}

/* Whether the next word of the line is this one; then it is passed. */
static int is_word(const char word[], unsigned length)
{
    unsigned k = 0;
    skip_spaces();
    while (k < length && letter(at + k) == word[k])
        k++;
    if (k < length || (letter(at + k) != ' ' && letter(at + k) != 0))
        return 0;
    at += k;
    return 1;
}

/* The next word as a number of 32 bits. */
static int is_number(void)
{
    unsigned digits = 0;
    number = 0;
    skip_spaces();
    for (; letter(at) >= '0' && letter(at) <= '9'; at++, digits++) {
        unsigned digit = letter(at) - '0';
        if (number > (4294967295u - digit) / 10)
            return 0;
        number = number * 10 + digit;
    }
    return digits > 0 && (letter(at) == ' ' || letter(at) == 0);
}

static void set_cell(int adds)
{
    if (is_number() && number < CELLS) {
        unsigned cell = number;
        if (is_number()) {
            cells[cell] = adds ? cells[cell] + number : number;
            return;
        }
    }
    say("a cell, 0 to 9, and a number, please\n", 37);
}

static void get_cell(void)
{
    if (is_number() && number < CELLS)
        say_number(cells[number]);
    else
        say("a cell, 0 to 9, please\n", 23);
}

static void sum_cells(void)
{
    unsigned sum = 0;
    for (int k = 0; k < CELLS; k++)
        sum += cells[k];
    say_number(sum);
}

static void echo_line(void)
{
    skip_spaces();
    for (; letter(at) != 0; at++)
        rv_putbyte(letter(at));
    rv_putbyte('\n');
}

static void forever(void)
{
    for (unsigned n = 0;; n++)
        say_number(n);
}

static void help(void)
{
    say("set CELL N    the cell, 0 to 9, gets the number\n", 48);
    say("add CELL N    the number is added to it, modulo 4294967296\n", 59);
    say("get CELL      what it has\n", 26);
    say("sum           of all cells\n", 27);
    say("echo TEXT     the text\n", 23);
    say("count         the lines that were read\n", 39);
    say("forever       numbers from 0 on, without an end\n", 48);
    say("quit N        the end, with status N\n", 37);
}

/* Does what the line says. Answers 0 where that is to end. */
static int answer(void)
{
    if (is_word("quit", 4))
        return 0;
    if (is_word("set", 3))
        set_cell(0);
    else if (is_word("add", 3))
        set_cell(1);
    else if (is_word("get", 3))
        get_cell();
    else if (is_word("sum", 3))
        sum_cells();
    else if (is_word("echo", 4))
        echo_line();
    else if (is_word("count", 5))
        say_number(lines);
    else if (is_word("forever", 7))
        forever();
    else if (is_word("help", 4))
        help();
    else if (!is_word("", 0))
        say("no such command: try help\n", 26);
    return 1;
}

int main(void)
{
    say("Zikorape console: try help\n> ", 29);
    while (read_line()) {
        lines++;
        if (!answer())
            return is_number() ? (int)(number % 256) : 0;
        say("> ", 2);
    }
    return 0;
}
