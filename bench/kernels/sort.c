/* Quicksort of 1000 numbers, and a check sum of their order. */
int numbers[1000];

void sort(int list[], int low, int high)
{
    int i = low;
    int j = high;
    int middle = list[(low + high) / 2];
    while (i <= j) {
        while (list[i] < middle)
            i++;
        while (middle < list[j])
            j--;
        if (i <= j) {
            int t = list[i];
            list[i] = list[j];
            list[j] = t;
            i++;
            j--;
        }
    }
    if (low < j)
        sort(list, low, j);
    if (i < high)
        sort(list, i, high);
}

int main(void)
{
    unsigned seed = 1;
    unsigned sum = 0;
    int i;
    for (i = 0; i < 1000; i++) {
        seed = seed * 1103515245 + 12345;
        numbers[i] = (int)(seed >> 16 & 0x7fff);
    }
    sort(numbers, 0, 999);
    for (i = 0; i < 1000; i++)
        sum = sum * 31 + (unsigned)numbers[i];
    return (int)(sum & 127);
}
