/* Where the parts of a frame stand (manual 1.2). */
#ifndef FRAME_H
#define FRAME_H

enum frame_part {
    FRAME_TO_UNIT = 0,
    FRAME_TO_GROUP = 1,
    FRAME_FROM_UNIT = 2,
    FRAME_FROM_GROUP = 3,
    FRAME_OPCODE = 4,
    FRAME_DATA_LENGTH = 5,
    FRAME_DATA = 6,
};

#define FRAME_OVERHEAD 8 /* the bytes of a frame besides its data */

#endif
