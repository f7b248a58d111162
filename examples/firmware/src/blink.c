#include "uart.h"
#include "board/pins.h"

/* Says + for each time that the LED goes on, and - for each that it goes off. */
void blink(int times) {
    for (int i = 0; i < times; i++) {
        say('+');
        say('-');
    }
    say('\n');
}
