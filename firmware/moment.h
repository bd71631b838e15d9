/* Moments of the machine's steady clock, in milliseconds: they only grow, whoever sets the time of day. */
#ifndef MOMENT_H
#define MOMENT_H

#include <stdint.h>

#define SECOND INT64_C(1000)
#define NEVER  INT64_MAX

int64_t moment_now(void);

#endif
