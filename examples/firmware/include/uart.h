#ifndef UART_H
#define UART_H

void say(int letter);
void say_number(int n);

#endif
