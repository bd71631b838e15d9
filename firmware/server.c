#define _GNU_SOURCE /* ppoll */
#include "server.h"

#include <errno.h>
#include <poll.h>
#include <signal.h>
#include <stdio.h>
#include <stdlib.h>
#include <string.h>
#include <time.h>
#include <unistd.h>

#include "moment.h"
#include "serial.h"
#include "tcp.h"

/* The serial device has the first line. */
#define SERIAL           0
#define FIRST_CONNECTION 1

static volatile sig_atomic_t asked_to_end;

static void ask_to_end(int number)
{
    (void)number;
    asked_to_end = 1;
}

/* Blocks the signals that end the program, and gives the mask without them: so they come only while ppoll waits, where they wake it. */
static sigset_t catch_signals(void)
{
    const struct sigaction action = {.sa_handler = ask_to_end};
    sigset_t ending;
    sigset_t waiting;
    sigemptyset(&ending);
    sigaddset(&ending, SIGTERM);
    sigaddset(&ending, SIGINT);
    sigprocmask(SIG_BLOCK, &ending, &waiting);
    sigdelset(&waiting, SIGTERM);
    sigdelset(&waiting, SIGINT);
    sigaction(SIGTERM, &action, NULL);
    sigaction(SIGINT, &action, NULL);
    signal(SIGPIPE, SIG_IGN); /* a write to a line that is gone says so itself */
    return waiting;
}

static bool open_serial(struct server *server, int64_t now)
{
    const struct arguments *arguments = &server->arguments;
    int device = serial_open(arguments->serial, arguments->rate);
    if (device < 0)
        return false;
    line_open(&server->lines[SERIAL], device, arguments->serial, arguments->verbose, now);
    return true;
}

int server_start(struct server *server, const struct arguments *arguments)
{
    int64_t now = moment_now();
    char name[LINE_NAME_BYTES];
    server->arguments = *arguments;
    server->waiting_mask = catch_signals();
    for (size_t i = 0; i < SERVER_LINES; i++)
        server->lines[i].descriptor = -1;
    if (!unit_start(&server->unit, arguments->unit, arguments->group, arguments->level, now)) {
        fprintf(stderr, "tyurkanim: no unit may have the address %u,%u\n", arguments->unit, arguments->group);
        return STATUS_BAD_ARGUMENTS;
    }
    server->listener = tcp_listen(arguments->listen, arguments->port, name, sizeof name);
    if (server->listener < 0) {
        fprintf(stderr, "tyurkanim: cannot listen at %s port %s: %s\n", arguments->listen, arguments->port, strerror(errno));
        return EXIT_FAILURE;
    }
    if (arguments->serial != NULL && !open_serial(server, now)) {
        fprintf(stderr, "tyurkanim: cannot serve %s: %s\n", arguments->serial, strerror(errno));
        return EXIT_FAILURE;
    }
    printf("tyurkanim: unit %u, group %u, level %u, listening at %s\n", arguments->unit, arguments->group, arguments->level, name);
    return EXIT_SUCCESS;
}

static struct line *closed_line(struct server *server)
{
    for (size_t i = FIRST_CONNECTION; i < SERVER_LINES; i++) {
        if (!line_is_open(&server->lines[i]))
            return &server->lines[i];
    }
    return NULL;
}

/* Closes the connection that was silent longest, if there is one: a host that went away without a word would otherwise hold its line for
 * ever. */
static struct line *make_place(struct server *server)
{
    struct line *silent = NULL;
    for (size_t i = FIRST_CONNECTION; i < SERVER_LINES; i++) {
        struct line *line = &server->lines[i];
        if (line_is_open(line) && (silent == NULL || line->heard < silent->heard))
            silent = line;
    }
    if (silent != NULL)
        line_close(silent);
    return silent;
}

static void take_connection(struct server *server, int64_t now)
{
    char name[LINE_NAME_BYTES];
    int connection = tcp_accept(server->listener, name, sizeof name);
    if (connection < 0) {
        if (errno == EMFILE || errno == ENFILE)
            make_place(server);
        return;
    }
    struct line *line = closed_line(server);
    if (line == NULL)
        line = make_place(server);
    line_open(line, connection, name, server->arguments.verbose, now);
}

/* Waits until a line, the listener, a deadline or the clock's next second has something to do. False if it cannot wait. */
static bool wait_for_work(const struct server *server, struct pollfd *polled, int64_t now)
{
    int64_t deadline = unit_next_second(&server->unit);
    for (size_t i = 0; i < SERVER_LINES; i++) {
        const struct line *line = &server->lines[i];
        polled[i] = (struct pollfd){.fd = line->descriptor};
        if (line_is_open(line)) {
            polled[i].events = line_events(line);
            if (line_deadline(line) < deadline)
                deadline = line_deadline(line);
        }
    }
    polled[SERVER_LINES] = (struct pollfd){.fd = server->listener, .events = POLLIN};

    int64_t left = deadline > now ? deadline - now : 0;
    struct timespec timeout = {.tv_sec = left / SECOND, .tv_nsec = left % SECOND * 1000000};
    return ppoll(polled, SERVER_LINES + 1, &timeout, &server->waiting_mask) >= 0;
}

static void take_turns(struct server *server, const struct pollfd *polled, int64_t now)
{
    bool new_second = unit_next_second(&server->unit) <= now;
    unit_pass(&server->unit, now);
    for (size_t i = 0; i < SERVER_LINES; i++) {
        if (line_is_open(&server->lines[i]))
            line_turn(&server->lines[i], polled[i].revents, &server->unit, now);
    }
    if (polled[SERVER_LINES].revents & POLLIN)
        take_connection(server, now);
    /* A serial device that was unplugged may come back. */
    if (new_second && server->arguments.serial != NULL && !line_is_open(&server->lines[SERIAL]))
        open_serial(server, now);
}

int server_run(struct server *server)
{
    struct pollfd polled[SERVER_LINES + 1];
    while (!asked_to_end) {
        if (wait_for_work(server, polled, moment_now())) {
            take_turns(server, polled, moment_now());
        } else if (errno != EINTR) {
            fprintf(stderr, "tyurkanim: cannot wait for %d lines: %s\n", SERVER_LINES, strerror(errno));
            return EXIT_FAILURE;
        }
    }
    return EXIT_SUCCESS;
}
