#include <rvio.h>

int main(void) {
    int sum = 0, count = 0;
    for (int c = rv_getbyte(); c != -1; c = rv_getbyte()) {
        sum += c;
        count++;
    }
    return sum / count;
}
