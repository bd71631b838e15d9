/* A line that requests come in on and replies go out on: a TCP connection or a serial device.
 *
 * A line has a fixed number of bytes each way. While a reply would not fit it takes no more bytes in, so whoever asks faster than it
 * reads waits, and whoever never reads is dropped. */
#ifndef LINE_H
#define LINE_H

#include <stdbool.h>
#include <stdint.h>

#include "stream.h"
#include "unit.h"

#define LINE_NAME_BYTES 80
#define LINE_OUT_BYTES  (4 * TYURKANIM_FRAME_BYTES)

struct line {
    int descriptor; /* -1: the line is closed */
    bool verbose;
    char name[LINE_NAME_BYTES];
    struct stream in;
    uint8_t out[LINE_OUT_BYTES];
    size_t out_start; /* of what is not sent yet */
    size_t out_end;
    bool ended;    /* the other side sends no more */
    size_t noise;  /* bytes dropped since the last frame */
    int64_t heard; /* when bytes last came, or could not come since none were taken */
    int64_t sent;  /* when bytes last went, or none were left to go */
};

void line_open(struct line *line, int descriptor, const char *name, bool verbose, int64_t now);
void line_close(struct line *line);
bool line_is_open(const struct line *line);

/* What poll(2) is to wait for, and until when at most. */
short line_events(const struct line *line);
int64_t line_deadline(const struct line *line);

/* One turn, with the events that poll(2) found: takes bytes in, answers, sends. Closes the line where it is over. */
void line_turn(struct line *line, short events, struct unit *unit, int64_t now);

#endif
