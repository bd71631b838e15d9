/* How deep the calls of the archive go into the stack. Each call is made on a stack of its own that was painted first; then the lowest byte
 * that was touched is looked for. Reads requests as records of 272 bytes (compare/src/record.rs) from standard input and writes the bytes of
 * stack of each; then, by name, those of the other calls. */
#define _XOPEN_SOURCE 700
#include <stdio.h>
#include <string.h>
#include <ucontext.h>

#include "../include/tyurkanim.h"

enum { UNIT = 1, GROUP = 2, HEAD = 4, RECORD = 272 };

static unsigned char stack[1 << 14];
static unsigned char *caller; /* where the caller's frame is in it */
static volatile uint8_t outcome; /* kept after each call, so that the caller's frame stays while it runs */

static uint8_t store[TYURKANIM_STORE_BYTES];
static uint8_t clock_bytes[TYURKANIM_CLOCK_BYTES] = {0, 0, 0, 1, 1, 0xD0, 7};
static uint8_t reply[TYURKANIM_FRAME_BYTES];
static uint8_t record[RECORD];

static ucontext_t here, there;

static void call_request(void)
{
    uint16_t length;
    caller = __builtin_frame_address(0);
    outcome = tyurkanim_request(record + HEAD, record[2] + 256u * record[3], store, sizeof store, clock_bytes, UNIT, GROUP, record[0], reply,
                                sizeof reply, &length);
}

static void call_system_write(void)
{
    static const uint8_t entries[2] = {72, 3};
    caller = __builtin_frame_address(0);
    outcome = tyurkanim_system_write(store, sizeof store, 124, 1, 3, entries, sizeof entries);
}

static void call_fill(void)
{
    caller = __builtin_frame_address(0);
    outcome = tyurkanim_fill(store, sizeof store);
}

static void call_tick(void)
{
    caller = __builtin_frame_address(0);
    outcome = tyurkanim_tick(clock_bytes);
}

static void call_number_read(void)
{
    uint8_t kind;
    uint64_t bits;
    caller = __builtin_frame_address(0);
    outcome = tyurkanim_number_read(store, sizeof store, 98, 0, 43, &kind, &bits);
}

static long depth_over(void (*call)(void), unsigned char paint)
{
    unsigned char *touched = stack;
    memset(stack, paint, sizeof stack);
    getcontext(&there);
    there.uc_stack.ss_sp = stack;
    there.uc_stack.ss_size = sizeof stack;
    there.uc_link = &here;
    makecontext(&there, call, 0);
    swapcontext(&here, &there);
    while (*touched == paint)
        touched++;
    return caller - touched;
}

/* A byte that is written as it was painted does not show, so there are two paints. */
static long depth(void (*call)(void))
{
    long one = depth_over(call, 0xA5), other = depth_over(call, 0x5A);
    return one > other ? one : other;
}

int main(void)
{
    long filling = depth(call_fill);
    while (fread(record, sizeof record, 1, stdin) == 1)
        printf("%ld\n", depth(call_request));
    printf("fill\t%ld\n", filling);
    printf("system write\t%ld\n", depth(call_system_write));
    printf("tick\t%ld\n", depth(call_tick));
    printf("number read\t%ld\n", depth(call_number_read));
    return 0;
}
