/* A console: reads commands, a line each, from the serial line, and answers them until quit or the input's end. */
#include <rvio.h>

enum { CELLS = 10, LONGEST = 60 };

static char line[LONGEST + 1];      /* the line that was read, and a zero behind it */
static int at;                      /* as far as it was looked at */
static unsigned number;             /* the last number that was read */
static unsigned cells[CELLS];
static unsigned lines;

static void say(const char text[])
{
    for (int k = 0; text[k] != 0; k++)
        rv_putbyte(text[k]);
}

static void say_number(unsigned n)
{
    char digits[10];
    int first = 10;
    do {
        digits[--first] = '0' + n % 10;
        n /= 10;
    } while (n != 0);
    while (first < 10)
        rv_putbyte(digits[first++]);
    rv_putbyte('\n');
}

/* The next byte, without the LF behind a CR: both together end one line. */
static int read_byte(void)
{
    static int last;
    int c = rv_getbyte();
    if (c == '\n' && last == '\r')
        c = rv_getbyte();
    last = c;
    return c;
}

/* A line, up to its end; what is too long for it is dropped. Answers 0 at the input's end. */
static int read_line(void)
{
    int length = 0;
    int c;
    at = 0;
    while ((c = read_byte()) != -1 && c != '\r' && c != '\n')
        if (c == '\b' || c == 127)
            length -= length > 0;
        else if (length < LONGEST)
            line[length++] = c;
    line[length] = 0;
    return c != -1 || length > 0;
}

static void skip_spaces(void)
{
    while (line[at] == ' ')
        at++;
}

/* Whether the next word of the line is this one; then it is passed. */
static int is_word(const char word[])
{
    int k = 0;
    skip_spaces();
    while (word[k] != 0 && line[at + k] == word[k])
        k++;
    if (word[k] != 0 || (line[at + k] != ' ' && line[at + k] != 0))
        return 0;
    at += k;
    return 1;
}

/* The next word as a number of 32 bits. */
static int is_number(void)
{
    int digits = 0;
    number = 0;
    skip_spaces();
    for (; line[at] >= '0' && line[at] <= '9'; at++, digits++) {
        unsigned digit = line[at] - '0';
        if (number > (4294967295u - digit) / 10)
            return 0;
        number = number * 10 + digit;
    }
    return digits > 0 && (line[at] == ' ' || line[at] == 0);
}

static void set_cell(int adds)
{
    if (is_number() && number < CELLS) {
        unsigned cell = number;
        if (is_number()) {
            cells[cell] = adds ? cells[cell] + number : number;
            return;
        }
    }
    say("a cell, 0 to 9, and a number, please\n");
}

static void get_cell(void)
{
    if (is_number() && number < CELLS)
        say_number(cells[number]);
    else
        say("a cell, 0 to 9, please\n");
}

static void sum_cells(void)
{
    unsigned sum = 0;
    for (int k = 0; k < CELLS; k++)
        sum += cells[k];
    say_number(sum);
}

static void echo_line(void)
{
    skip_spaces();
    for (; line[at] != 0; at++)
        rv_putbyte(line[at]);
    rv_putbyte('\n');
}

static void forever(void)
{
    for (unsigned n = 0;; n++)
        say_number(n);
}

static void help(void)
{
    say("set CELL N    the cell, 0 to 9, gets the number\n"
        "add CELL N    the number is added to it, modulo 4294967296\n"
        "get CELL      what it has\n"
        "sum           of all cells\n"
        "echo TEXT     the text\n"
        "count         the lines that were read\n"
        "forever       numbers from 0 on, without an end\n"
        "quit N        the end, with status N\n");
}

/* Does what the line says. Answers 0 where that is to end. */
static int answer(void)
{
    if (is_word("quit"))
        return 0;
    if (is_word("set"))
        set_cell(0);
    else if (is_word("add"))
        set_cell(1);
    else if (is_word("get"))
        get_cell();
    else if (is_word("sum"))
        sum_cells();
    else if (is_word("echo"))
        echo_line();
    else if (is_word("count"))
        say_number(lines);
    else if (is_word("forever"))
        forever();
    else if (is_word("help"))
        help();
    else if (!is_word(""))
        say("no such command: try help\n");
    return 1;
}

int main(void)
{
    say("Zikorape console: try help\n> ");
    while (read_line()) {
        lines++;
        if (!answer())
            return is_number() ? (int)(number % 256) : 0;
        say("> ");
    }
    return 0;
}
