#include <rvio.h>
#include "uart.h"

void say(int letter) {
    rv_putbyte(letter);
}

/* Says a number from 0 to 9999, without zeros before it. */
void say_number(int n) {
    for (int unit = 1000; unit > 0; unit /= 10) {
        int digit = n / unit % 10;
        if (n >= unit || unit == 1)
            say('0' + digit);
    }
}
