/* Each call of the library once from C, with what it must leave and what it must not touch. */
#include <stdio.h>
#include <string.h>

#include "tyurkanim.h"

static int failed;

#define CHECK(fact) \
    do { \
        if (!(fact)) { \
            fprintf(stderr, "%s:%d: %s\n", __FILE__, __LINE__, #fact); \
            failed = 1; \
        } \
    } while (0)

static uint8_t store[TYURKANIM_STORE_BYTES];

static const uint8_t midnight[TYURKANIM_CLOCK_BYTES] = {0, 0, 0, 1, 1, 0xD0, 0x07}; /* 2000-01-01, a Saturday */

static void fills(void)
{
    memset(store, 0xFF, sizeof store);
    CHECK(tyurkanim_fill(store, sizeof store - 1) == TYURKANIM_STORE_LENGTH && store[0] == 0xFF);
    CHECK(tyurkanim_fill(store, sizeof store) == TYURKANIM_DONE && store[0] != 0xFF);
}

static void ticks(void)
{
    uint8_t clock[TYURKANIM_CLOCK_BYTES] = {59, 59, 23, 28, 2, 0xD0, 0x07};
    const uint8_t leap_day[TYURKANIM_CLOCK_BYTES] = {0, 0, 0, 29, 2, 0xD0, 0x07};
    CHECK(tyurkanim_tick(clock) == TYURKANIM_DONE && memcmp(clock, leap_day, sizeof clock) == 0);
    clock[3] = 30;
    CHECK(tyurkanim_tick(clock) == TYURKANIM_SETTING && clock[0] == 0 && clock[3] == 30);
}

/* Short 1 of soft point 0, and its tag, which is no number. */
static void writes_and_reads(void)
{
    const uint8_t value[] = {0x34, 0x12};
    uint8_t kind = 9;
    uint64_t bits = 9;
    CHECK(tyurkanim_system_write(store, sizeof store, 98, 0, 23, value, 1) == TYURKANIM_TOO_SHORT);
    CHECK(tyurkanim_system_write(store, sizeof store, 98, 0, 23, value, 2) == TYURKANIM_DONE);
    CHECK(tyurkanim_number_read(store, sizeof store, 98, 0, 0, &kind, &bits) == TYURKANIM_RANGE && kind == 9 && bits == 9);
    CHECK(tyurkanim_number_read(store, sizeof store, 98, 0, 23, &kind, &bits) == TYURKANIM_DONE && kind == 0 && bits == 0x1234);
}

/* Host 3,4 asks for the clock; then the same with a wrong CRC, and in a space that is one byte short. */
static void requests(void)
{
    uint8_t frame[] = {1, 2, 3, 4, 7, 0, 0x3B, 0xA4};
    const uint8_t sent[] = {3, 4, 1, 2, 7, 8, 0, 0, 0, 1, 1, 0xD0, 0x07, 7};
    uint8_t clock[TYURKANIM_CLOCK_BYTES], reply[TYURKANIM_FRAME_BYTES];
    uint16_t length = 999;
    memcpy(clock, midnight, sizeof clock);
    memset(reply, 0xEE, sizeof reply);
    CHECK(tyurkanim_request(frame, sizeof frame, store, sizeof store, clock, 1, 2, 0, reply, sizeof reply - 1, &length)
          == TYURKANIM_REPLY_SPACE && length == 0 && reply[0] == 0xEE);
    CHECK(tyurkanim_request(frame, sizeof frame, store, sizeof store, clock, 1, 2, 0, reply, sizeof reply, &length) == TYURKANIM_DONE);
    CHECK(length == 16 && memcmp(reply, sent, sizeof sent) == 0 && reply[16] == 0xEE);
    frame[7] ^= 1;
    CHECK(tyurkanim_request(frame, sizeof frame, store, sizeof store, clock, 1, 2, 0, reply, sizeof reply, &length) == TYURKANIM_CRC
          && length == 0);
    CHECK(memcmp(clock, midnight, sizeof clock) == 0);
}

int main(void)
{
    fills();
    ticks();
    writes_and_reads();
    requests();
    if (!failed)
        puts("calls: each of the five calls answers from C");
    return failed;
}
