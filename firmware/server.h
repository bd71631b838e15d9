/* The server: one unit, the lines that ask it, and the loop that serves them in turn. */
#ifndef SERVER_H
#define SERVER_H

#include <signal.h>

#include "arguments.h"
#include "line.h"
#include "unit.h"

#define SERVER_LINES 17 /* a serial device and 16 connections */

struct server {
    struct arguments arguments;
    struct unit unit;
    int listener;
    sigset_t waiting_mask; /* the signals that are blocked while it waits */
    struct line lines[SERVER_LINES];
};

/* Makes the unit and opens what the arguments name, and says where it listens. 0, or the status to end the program with. */
int server_start(struct server *server, const struct arguments *arguments);

/* Serves until SIGTERM or SIGINT, and gives the status to end the program with. */
int server_run(struct server *server);

#endif
