#include "unit.h"

#include <time.h>

#include "frame.h"
#include "moment.h"

#define FIRST_YEAR 2000
#define LAST_YEAR  2099

#define SET_CLOCK  8 /* the opcode */

static void clock_show(uint8_t clock[TYURKANIM_CLOCK_BYTES], const struct tm *at)
{
    int year = at->tm_year + 1900;
    clock[0] = (uint8_t)(at->tm_sec > 59 ? 59 : at->tm_sec); /* a leap second has no number of its own */
    clock[1] = (uint8_t)at->tm_min;
    clock[2] = (uint8_t)at->tm_hour;
    clock[3] = (uint8_t)at->tm_mday;
    clock[4] = (uint8_t)(at->tm_mon + 1);
    clock[5] = (uint8_t)(year & 0xff);
    clock[6] = (uint8_t)(year >> 8);
}

/* Sets the clock from the machine. A machine whose own clock was never set, or that outlives the clock's years, gets the nearest moment
 * that the clock can show. Returns how many milliseconds of the shown second have passed. */
static int clock_from_machine(uint8_t clock[TYURKANIM_CLOCK_BYTES])
{
    struct tm first = {.tm_year = FIRST_YEAR - 1900, .tm_mon = 0, .tm_mday = 1};
    struct tm last = {.tm_year = LAST_YEAR - 1900, .tm_mon = 11, .tm_mday = 31, .tm_hour = 23, .tm_min = 59, .tm_sec = 59};
    struct timespec machine;
    struct tm at;
    if (clock_gettime(CLOCK_REALTIME, &machine) != 0 || gmtime_r(&machine.tv_sec, &at) == NULL || at.tm_year < first.tm_year) {
        clock_show(clock, &first);
        return 0;
    }
    clock_show(clock, at.tm_year > last.tm_year ? &last : &at);
    return (int)(machine.tv_nsec / 1000000);
}

static void ask(struct unit *unit, const uint8_t *frame, size_t length, struct answer *answer)
{
    answer->outcome = tyurkanim_request(frame, length, unit->store, sizeof unit->store, unit->clock, unit->own_unit, unit->own_group,
                                        unit->level, answer->reply, sizeof answer->reply, &answer->length);
}

bool unit_start(struct unit *unit, uint8_t own_unit, uint8_t own_group, uint8_t level, int64_t now)
{
    unit->own_unit = own_unit;
    unit->own_group = own_group;
    unit->level = level;
    tyurkanim_fill(unit->store, sizeof unit->store);
    unit->second_began = now - clock_from_machine(unit->clock);

    /* The settings are judged before the frame, so a frame of no bytes asks about them alone. */
    const uint8_t nothing[1] = {0};
    struct answer answer;
    ask(unit, nothing, 0, &answer);
    return answer.outcome != TYURKANIM_SETTING;
}

void unit_pass(struct unit *unit, int64_t now)
{
    while (unit_next_second(unit) <= now) {
        tyurkanim_tick(unit->clock);
        unit->second_began += SECOND;
    }
}

int64_t unit_next_second(const struct unit *unit)
{
    return unit->second_began + SECOND;
}

void unit_answer(struct unit *unit, const uint8_t *frame, size_t length, struct answer *answer, int64_t now)
{
    ask(unit, frame, length, answer);
    /* "When you set the clock, the microseconds in the ROC800 zero out" (manual 2.4). */
    if (answer->outcome == TYURKANIM_DONE && frame[FRAME_OPCODE] == SET_CLOCK)
        unit->second_began = now;
}
