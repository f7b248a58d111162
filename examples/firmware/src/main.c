/* Five files in two folders: one unit, since this file includes the others. */
#include "uart.h"
#include "board/pins.h"
#include "uart.c"
#include "blink.c"

int main(void) {
    say_number(BLINKS);
    blink(BLINKS);
    return LED;
}
