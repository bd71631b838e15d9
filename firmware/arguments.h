/* What the command line says. */
#ifndef ARGUMENTS_H
#define ARGUMENTS_H

#include <stdbool.h>
#include <stdint.h>

#define STATUS_BAD_ARGUMENTS 2

struct arguments {
    uint8_t unit;
    uint8_t group;
    uint8_t level;
    const char *listen;
    const char *port;
    const char *serial; /* NULL: none */
    unsigned long rate; /* 0: as the device has it */
    bool verbose;
};

/* Reads the command line. Ends the program with --help, or with status 2 if an argument is bad. */
struct arguments arguments_read(int count, char **words);

#endif
