/* The sum of the bytes of the input, each times its place: defined up to the input's 16th byte above 'z'. Find out why. */
#include <rvio.h>

int main(void) {
    int weights[16] = { 1, 3, 5, 7, 9, 11, 13, 15, 17, 19, 21, 23, 25, 27, 29, 31 };
    int large = 0;
    unsigned sum = 0;
    for (int c = rv_getbyte(); c != -1; c = rv_getbyte()) {
        if (c > 'z')
            large++;
        sum += (unsigned)c * (unsigned)weights[large];
    }
    rv_putbyte((int)(sum & 255));
    return 0;
}
