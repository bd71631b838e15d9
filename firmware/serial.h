/* A serial device, or a pseudo-terminal. */
#ifndef SERIAL_H
#define SERIAL_H

#include <stdbool.h>

/* Whether a serial device can run at so many bits a second. */
bool serial_has_rate(unsigned long rate);

/* Opens the device to carry bytes as they are, at the rate it has if `rate` is 0. -1, with errno, if it cannot. */
int serial_open(const char *path, unsigned long rate);

#endif
