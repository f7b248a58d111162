#ifndef PINS_H
#define PINS_H

enum { LED = 7 };

#ifndef BLINKS
#define BLINKS 3
#endif

#endif
