/* Frames found in a stream of bytes.
 *
 * A stream has no marks between frames: a frame's end is known only from its sixth byte, the data length. After noise that byte may be
 * any number, so these rules find the next frame again:
 *
 * - A whole frame whose CRC is right goes as a whole, whoever it is for. What its data hold is never taken for a frame.
 * - A whole frame whose CRC differs is none. Only its first byte goes, and the search begins at the next one, so that a good frame
 *   behind, or within, what the noise made look like a frame is found and not lost with it.
 * - So it is with a frame for another station that begins with a zero. The CRC starts at 0 and does not see zeros in front, and zeros
 *   are what a disturbed line brings: the frame may well begin behind them. (A frame that truly begins so is a broadcast to another
 *   group, which nobody answers.)
 * - A half frame waits for the rest. If the line falls silent it is given up in the same way, byte by byte: noise that promised
 *   more bytes than came does not hold back a good frame behind it. */
#ifndef STREAM_H
#define STREAM_H

#include <stddef.h>
#include <stdint.h>

#include "tyurkanim.h"

#define STREAM_BYTES (4 * TYURKANIM_FRAME_BYTES)

struct stream {
    uint8_t bytes[STREAM_BYTES];
    size_t start; /* of what has come and is not dropped */
    size_t end;
};

/* Where the next bytes go, and how many may: never none while less than a whole frame waits. */
uint8_t *stream_room(struct stream *stream, size_t *room);

/* So many bytes were put there. */
void stream_add(struct stream *stream, size_t count);

/* How many bytes wait. */
size_t stream_waiting(const struct stream *stream);

/* The length of the frame that stands in front, 0 while it is not whole; it begins at stream_front. */
size_t stream_frame(const struct stream *stream);
const uint8_t *stream_front(const struct stream *stream);

/* Takes away the bytes in front. */
void stream_drop(struct stream *stream, size_t count);

#endif
