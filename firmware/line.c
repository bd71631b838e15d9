#include "line.h"

#include <errno.h>
#include <poll.h>
#include <stdio.h>
#include <string.h>
#include <unistd.h>

#include "frame.h"
#include "moment.h"
#include "words.h"

/* Longer than any pause within a frame that a serial adapter, a radio or one repeated TCP segment makes, and shorter than hosts wait
 * before they ask again. */
#define SILENCE (SECOND / 2)

/* How long the other side may take no byte of a reply. */
#define STALL (5 * SECOND)

void line_open(struct line *line, int descriptor, const char *name, bool verbose, int64_t now)
{
    *line = (struct line){.descriptor = descriptor, .verbose = verbose, .heard = now, .sent = now};
    snprintf(line->name, sizeof line->name, "%s", name);
    if (verbose)
        printf("%s: opened\n", line->name);
}

void line_close(struct line *line)
{
    close(line->descriptor);
    line->descriptor = -1;
    if (line->verbose)
        printf("%s: closed\n", line->name);
}

bool line_is_open(const struct line *line)
{
    return line->descriptor >= 0;
}

static size_t unsent(const struct line *line)
{
    return line->out_end - line->out_start;
}

static bool has_reply_space(const struct line *line)
{
    return LINE_OUT_BYTES - unsent(line) >= TYURKANIM_FRAME_BYTES;
}

static bool listens(const struct line *line)
{
    return !line->ended && has_reply_space(line);
}

short line_events(const struct line *line)
{
    return (short)((listens(line) ? POLLIN : 0) | (unsent(line) > 0 ? POLLOUT : 0));
}

int64_t line_deadline(const struct line *line)
{
    int64_t stall = unsent(line) > 0 ? line->sent + STALL : NEVER;
    int64_t silence = stream_waiting(&line->in) > 0 && listens(line) ? line->heard + SILENCE : NEVER;
    return stall < silence ? stall : silence;
}

/* False if the line is lost. */
static bool take_in(struct line *line, int64_t now)
{
    size_t room;
    uint8_t *next = stream_room(&line->in, &room);
    ssize_t count = read(line->descriptor, next, room);
    if (count < 0)
        return errno == EAGAIN || errno == EINTR;
    line->ended = count == 0;
    line->heard = now;
    stream_add(&line->in, (size_t)count);
    return true;
}

/* False if the line is lost. */
static bool send_out(struct line *line, int64_t now)
{
    while (unsent(line) > 0) {
        ssize_t count = write(line->descriptor, line->out + line->out_start, unsent(line));
        if (count < 0)
            return errno == EAGAIN || errno == EINTR;
        line->out_start += (size_t)count;
        line->sent = now;
    }
    return true;
}

static void put_reply(struct line *line, const struct answer *answer)
{
    memmove(line->out, line->out + line->out_start, unsent(line));
    line->out_end = unsent(line);
    line->out_start = 0;
    memcpy(line->out + line->out_end, answer->reply, answer->length);
    line->out_end += answer->length;
}

static void drop_noise(struct line *line)
{
    stream_drop(&line->in, 1);
    line->noise++;
}

static void end_noise(struct line *line)
{
    if (line->noise > 0 && line->verbose)
        tell_noise(line->name, line->noise);
    line->noise = 0;
}

/* Whether a whole frame is one, by the rules of stream.h. */
static bool is_frame(const uint8_t *frame, uint8_t outcome)
{
    if (outcome == TYURKANIM_NOT_FOR_US || outcome == TYURKANIM_SOURCE)
        return frame[FRAME_TO_UNIT] != 0;
    return outcome != TYURKANIM_CRC;
}

static void judge(struct line *line, size_t length, struct unit *unit, int64_t now)
{
    const uint8_t *frame = stream_front(&line->in);
    struct answer answer;
    unit_answer(unit, frame, length, &answer, now);
    if (!is_frame(frame, answer.outcome)) {
        drop_noise(line);
        return;
    }
    end_noise(line);
    if (line->verbose)
        tell_request(line->name, frame, &answer);
    put_reply(line, &answer);
    stream_drop(&line->in, length);
}

/* Answers what is whole and sends it. While replies neither go out nor fit, requests wait. At silence no half frame is waited for.
 * False if the line is lost. */
static bool serve(struct line *line, bool silent, struct unit *unit, int64_t now)
{
    for (;;) {
        if (!has_reply_space(line) && !send_out(line, now))
            return false;
        if (!has_reply_space(line))
            return true;
        size_t length = stream_frame(&line->in);
        if (length > 0)
            judge(line, length, unit, now);
        else if (silent && stream_waiting(&line->in) > 0)
            drop_noise(line);
        else
            break;
    }
    if (stream_waiting(&line->in) == 0)
        end_noise(line);
    return send_out(line, now);
}

/* False if the line is over. */
static bool turn(struct line *line, short events, struct unit *unit, int64_t now)
{
    if (events & (POLLHUP | POLLERR | POLLNVAL))
        return false;
    if (unsent(line) == 0)
        line->sent = now;
    if (!has_reply_space(line))
        line->heard = now;
    else if ((events & POLLIN) && !take_in(line, now))
        return false;
    bool silent = line->ended || now - line->heard >= SILENCE;
    if (!serve(line, silent, unit, now) || now - line->sent >= STALL)
        return false;
    return !line->ended || unsent(line) > 0 || stream_waiting(&line->in) > 0;
}

void line_turn(struct line *line, short events, struct unit *unit, int64_t now)
{
    if (!turn(line, events, unit, now))
        line_close(line);
}
