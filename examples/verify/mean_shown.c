#include <rvio.h>

int main(void) {
    unsigned sum = 0, count = 0;
    for (int c = rv_getbyte(); c != -1; c = rv_getbyte()) {
        sum += (unsigned)c;
        count++;
    }
    return count > 0 ? (int)(sum / count & 255) : 0;
}
