/* Tyurkanim: the answering side of a ROC Plus device, as calls for firmware.
 *
 * Every call returns for any input, with one of the outcomes below, and needs no memory but the caller's buffers and less than 2 KB of
 * stack. It keeps no state of its own: what a unit holds is its store and its clock, which the caller owns. The calls may be made from
 * several threads as long as no two share a buffer at the same time.
 *
 * Rules for all calls: a pointer is not null, a buffer has the length that is passed with it, and buffers of one call do not overlap.
 * Nothing checks these three. */
#ifndef TYURKANIM_H
#define TYURKANIM_H

#include <stddef.h>
#include <stdint.h>

#ifdef __cplusplus
extern "C" {
#endif

#define TYURKANIM_STORE_BYTES 12427 /* the length of a store */
#define TYURKANIM_CLOCK_BYTES 7     /* second, minute, hour, day, month, year low byte, year high byte */
#define TYURKANIM_FRAME_BYTES 263   /* the longest frame, and the least that a reply space has */

/* Outcomes. A call that comes to anything but 0 leaves store and clock as they were. */
enum tyurkanim_outcome {
    TYURKANIM_DONE = 0,         /* acted on */
    TYURKANIM_REPLY_SPACE = 1,  /* reply space under 263 bytes */
    TYURKANIM_STORE_LENGTH = 2, /* store not 12,427 bytes */
    TYURKANIM_SETTING = 3,      /* own address not allowed, level above 3, or clock not a valid date */
    TYURKANIM_FRAME_LENGTH = 4, /* frame under 8 or over 263 bytes */
    TYURKANIM_DATA_LENGTH = 5,  /* frame not as long as its length byte says */
    TYURKANIM_CRC = 6,          /* CRC differs */
    TYURKANIM_NOT_FOR_US = 7,   /* for another station */
    TYURKANIM_SOURCE = 8,       /* from unit 0, from 240,240 or from our own address */
    TYURKANIM_OPCODE = 20,      /* opcode not served */
    TYURKANIM_TOO_SHORT = 21,   /* data too short, or spare bytes at its end */
    TYURKANIM_POINT_TYPE = 22,  /* no such point type */
    TYURKANIM_LOGICAL = 23,     /* no such logical */
    TYURKANIM_PARAMETER = 24,   /* no such parameter */
    TYURKANIM_LEVEL = 25,       /* level too low */
    TYURKANIM_READ_ONLY = 26,   /* parameter is read-only */
    TYURKANIM_RANGE = 27,       /* value outside its range; of a number read: the parameter is no number */
    TYURKANIM_TOO_LONG = 28,    /* reply would hold over 255 data bytes */
    TYURKANIM_TABLE = 29,       /* table, or location outside the table */
    TYURKANIM_COUNT = 30,       /* count is zero */
    TYURKANIM_DATE = 31         /* clock setting not a valid date */
};

/* Answers one frame.
 *
 * unit, group: our own address, not unit 0 and not 240,240. level: 0 to 3, what whoever asks may do. reply: 263 bytes or more.
 *
 * 0: acted on; 1 to 8: silent; 20 to 31: refused with an error frame. *length is always set: to how many bytes of reply are to be sent,
 * 0 where none are (1 to 8, and any request to unit 0, a broadcast). Bytes of reply behind *length are as they were. Only outcome 0
 * changes store or clock. */
uint8_t tyurkanim_request(const uint8_t *frame, size_t frame_len, uint8_t *store, size_t store_len, uint8_t clock[7], uint8_t unit,
                          uint8_t group, uint8_t level, uint8_t *reply, size_t reply_len, uint16_t *length);

/* Stores one value, read-only or not, whatever the level. 0, or 2, 22, 23, 24, 21 (value of another length), 27, tried in that order. */
uint8_t tyurkanim_system_write(uint8_t *store, size_t store_len, uint8_t type, uint8_t logical, uint8_t parameter, const uint8_t *value,
                               size_t value_len);

/* Fills the store with the defaults. 0, or 2 where the store has another length; then no byte is written. */
uint8_t tyurkanim_fill(uint8_t *store, size_t store_len);

/* Moves the clock on by one second. 0, or 3 where it shows no valid date; then it stays. 2099-12-31 23:59:59 stays too, with 0. */
uint8_t tyurkanim_tick(uint8_t clock[7]);

/* Reads one parameter as a number. 0, or 2, 22, 23, 24, 27 (text or TLP), tried in that order; a refusal leaves *kind and *bits.
 * *kind: 0 unsigned, 1 signed, 2 single, 3 double. *bits: the value's bits as they are stored, zeros above them: an unsigned number, a
 * signed byte in two's complement (255 is -1), the 32 or 64 bits of a float, whatever they are (those of a NaN too). */
uint8_t tyurkanim_number_read(const uint8_t *store, size_t store_len, uint8_t type, uint8_t logical, uint8_t parameter, uint8_t *kind,
                              uint64_t *bits);

#ifdef __cplusplus
}
#endif

#endif
