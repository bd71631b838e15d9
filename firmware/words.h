/* Requests and outcomes in words, for --verbose. */
#ifndef WORDS_H
#define WORDS_H

#include <stddef.h>
#include <stdint.h>

#include "unit.h"

/* One line of text on what was asked and what became of it. */
void tell_request(const char *who, const uint8_t *frame, const struct answer *answer);

/* One line of text on bytes that belonged to no frame. */
void tell_noise(const char *who, size_t count);

#endif
