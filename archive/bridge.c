/* Makes the calls of the archive for a program that is for another machine: reads calls from standard input and writes what came of each to
 * standard output.
 *
 * A call has 34 bytes, then its buffers. The bytes, numbers least significant byte first: which call; three numbers; the lengths of store,
 * frame or value, and reply space, four bytes each; the clock; kind; reply length in two bytes; bits in eight. The answer has the same
 * with the outcome in front, then store and reply space. */
#include <stdio.h>
#include <stdlib.h>
#include <string.h>
#include <unistd.h>

#include "../include/tyurkanim.h"

enum { REQUEST, SYSTEM_WRITE, FILL, TICK, NUMBER_READ };

enum { CALL, NUMBERS, LENGTHS = 4, CLOCK = 16, KIND = 23, REPLY_LENGTH, BITS = 26, HEAD = 34 };

/* Every buffer stands between bytes that no call may touch. */
enum { MOST = 1 << 14, GUARD = 64, UNTOUCHED = 0xC3 };

struct buffer {
    size_t length;
    uint8_t bytes[GUARD + MOST + GUARD];
};

static struct buffer head = {.length = HEAD}, store, input, reply, clock_bytes = {.length = TYURKANIM_CLOCK_BYTES};

static uint8_t *at(struct buffer *buffer)
{
    return buffer->bytes + GUARD;
}

static void fail(const char *why)
{
    fprintf(stderr, "bridge: %s\n", why);
    exit(1);
}

static void guard(struct buffer *buffer)
{
    memset(buffer->bytes, UNTOUCHED, GUARD);
    memset(at(buffer) + buffer->length, UNTOUCHED, GUARD);
}

static void check(struct buffer *buffer, const char *why)
{
    for (size_t i = 0; i < GUARD; i++)
        if (buffer->bytes[i] != UNTOUCHED || at(buffer)[buffer->length + i] != UNTOUCHED)
            fail(why);
}

/* Fills a buffer from standard input; false at its end. Read and written without C's streams: under an emulator each copy of a store costs
 * more than a call. */
static int take(struct buffer *buffer)
{
    if (buffer->length > MOST)
        fail("a buffer is too long");
    guard(buffer);
    for (size_t taken = 0; taken < buffer->length;) {
        ssize_t more = read(STDIN_FILENO, at(buffer) + taken, buffer->length - taken);
        if (more <= 0)
            return 0;
        taken += (size_t)more;
    }
    return 1;
}

static void give(struct buffer *buffer)
{
    for (size_t given = 0; given < buffer->length;) {
        ssize_t more = write(STDOUT_FILENO, at(buffer) + given, buffer->length - given);
        if (more <= 0)
            fail("nobody reads the answer");
        given += (size_t)more;
    }
}

static size_t length_at(int number)
{
    const uint8_t *bytes = at(&head) + LENGTHS + 4 * number;
    return bytes[0] | bytes[1] << 8 | bytes[2] << 16 | (size_t)bytes[3] << 24;
}

static uint8_t call(void)
{
    uint8_t *h = at(&head), *n = h + NUMBERS, outcome = 0;
    uint16_t length;
    uint64_t bits;

    memcpy(at(&clock_bytes), h + CLOCK, TYURKANIM_CLOCK_BYTES);
    memcpy(&length, h + REPLY_LENGTH, sizeof length);
    memcpy(&bits, h + BITS, sizeof bits);
    switch (h[CALL]) {
    case REQUEST:
        outcome = tyurkanim_request(at(&input), input.length, at(&store), store.length, at(&clock_bytes), n[0], n[1], n[2], at(&reply),
                                    reply.length, &length);
        break;
    case SYSTEM_WRITE:
        outcome = tyurkanim_system_write(at(&store), store.length, n[0], n[1], n[2], at(&input), input.length);
        break;
    case FILL:
        outcome = tyurkanim_fill(at(&store), store.length);
        break;
    case TICK:
        outcome = tyurkanim_tick(at(&clock_bytes));
        break;
    case NUMBER_READ:
        outcome = tyurkanim_number_read(at(&store), store.length, n[0], n[1], n[2], h + KIND, &bits);
        break;
    default:
        fail("no such call");
    }
    memcpy(h + CLOCK, at(&clock_bytes), TYURKANIM_CLOCK_BYTES);
    memcpy(h + REPLY_LENGTH, &length, sizeof length);
    memcpy(h + BITS, &bits, sizeof bits);
    return outcome;
}

int main(void)
{
    guard(&clock_bytes);
    while (take(&head)) {
        store.length = length_at(0);
        input.length = length_at(1);
        reply.length = length_at(2);
        if (!take(&store) || !take(&input) || !take(&reply))
            fail("a call is cut off");
        at(&head)[CALL] = call();
        check(&store, "a call wrote outside the store");
        check(&input, "a call wrote outside a frame or value");
        check(&reply, "a call wrote outside the reply space");
        check(&clock_bytes, "a call wrote outside the clock");
        give(&head);
        give(&store);
        give(&reply);
    }
    return 0;
}
