/* Parentheses, a character constant and comments. Writes "2" and a line feed, and returns 4. */
void rv_putbyte(int c);

int main(void)
{
    rv_putbyte('0' + (9 - (8 - (7 - 6)))); // 48 + 2
    rv_putbyte('\n');
    return (1 + 2) - (3 - 4);
}
