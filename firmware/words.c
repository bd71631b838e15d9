#include "words.h"

#include <stdio.h>

#include "frame.h"

static const char *opcode_words(uint8_t opcode)
{
    switch (opcode) {
    case 7:
        return "read the clock";
    case 8:
        return "set the clock";
    case 10:
        return "read a table's values";
    case 11:
        return "write a table's values";
    case 166:
        return "write a block of parameters";
    case 167:
        return "read a block of parameters";
    case 180:
        return "read a list of parameters";
    case 181:
        return "write a list of parameters";
    default:
        return "not served";
    }
}

static const char *outcome_words(uint8_t outcome)
{
    switch ((enum tyurkanim_outcome)outcome) {
    case TYURKANIM_DONE:
        return "acted on";
    case TYURKANIM_REPLY_SPACE:
        return "reply space too small";
    case TYURKANIM_STORE_LENGTH:
        return "store of another length";
    case TYURKANIM_SETTING:
        return "own address, level or clock not allowed";
    case TYURKANIM_FRAME_LENGTH:
        return "frame too short or too long";
    case TYURKANIM_DATA_LENGTH:
        return "frame not as long as its length byte says";
    case TYURKANIM_CRC:
        return "CRC differs";
    case TYURKANIM_NOT_FOR_US:
        return "for another station";
    case TYURKANIM_SOURCE:
        return "from an address that no station may have, or our own";
    case TYURKANIM_OPCODE:
        return "opcode not served";
    case TYURKANIM_TOO_SHORT:
        return "data too short, or spare bytes at the end";
    case TYURKANIM_POINT_TYPE:
        return "no such point type";
    case TYURKANIM_LOGICAL:
        return "no such logical";
    case TYURKANIM_PARAMETER:
        return "no such parameter";
    case TYURKANIM_LEVEL:
        return "level too low";
    case TYURKANIM_READ_ONLY:
        return "parameter is read-only";
    case TYURKANIM_RANGE:
        return "value outside its range";
    case TYURKANIM_TOO_LONG:
        return "reply would hold over 255 data bytes";
    case TYURKANIM_TABLE:
        return "table, or location outside the table";
    case TYURKANIM_COUNT:
        return "count is zero";
    case TYURKANIM_DATE:
        return "clock setting not a valid date";
    }
    return "unknown outcome";
}

void tell_request(const char *who, const uint8_t *frame, const struct answer *answer)
{
    uint8_t opcode = frame[FRAME_OPCODE];
    printf("%s: from %u,%u to %u,%u opcode %u (%s), %u data bytes: %u, %s", who, frame[FRAME_FROM_UNIT], frame[FRAME_FROM_GROUP],
           frame[FRAME_TO_UNIT], frame[FRAME_TO_GROUP], opcode, opcode_words(opcode), frame[FRAME_DATA_LENGTH], answer->outcome,
           outcome_words(answer->outcome));
    if (answer->length == 0)
        printf("; no reply\n");
    else if (answer->outcome == TYURKANIM_DONE)
        printf("; reply of %u bytes\n", answer->length);
    else
        printf(", place %u; error frame\n", answer->reply[FRAME_DATA + 1]);
}

void tell_noise(const char *who, size_t count)
{
    printf("%s: %zu bytes that belong to no frame; dropped\n", who, count);
}
