#include "stream.h"

#include <string.h>

#include "frame.h"

uint8_t *stream_room(struct stream *stream, size_t *room)
{
    size_t waiting = stream_waiting(stream);
    memmove(stream->bytes, stream_front(stream), waiting);
    stream->start = 0;
    stream->end = waiting;
    *room = STREAM_BYTES - waiting;
    return stream->bytes + waiting;
}

void stream_add(struct stream *stream, size_t count)
{
    stream->end += count;
}

size_t stream_waiting(const struct stream *stream)
{
    return stream->end - stream->start;
}

size_t stream_frame(const struct stream *stream)
{
    size_t waiting = stream_waiting(stream);
    if (waiting < FRAME_DATA)
        return 0;
    size_t length = FRAME_OVERHEAD + (size_t)stream_front(stream)[FRAME_DATA_LENGTH];
    return length <= waiting ? length : 0;
}

const uint8_t *stream_front(const struct stream *stream)
{
    return stream->bytes + stream->start;
}

void stream_drop(struct stream *stream, size_t count)
{
    stream->start += count;
}
