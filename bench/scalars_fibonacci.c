/* The 20th Fibonacci number by recursion. */
int fibonacci(int n)
{
    if (n < 2)
        return n;
    return fibonacci(n - 1) + fibonacci(n - 2);
}

int main(void)
{
    return fibonacci(20) & 255;
}
