// What tests of several resolvers share.
#ifndef SHARDS_H
#define SHARDS_H

#include "archcaraway_shards.h"
#include "chains.h"

enum { ROOM = 4194308 };

static uint8_t buffer[ROOM];

static inline bool are_same(const uint8_t *bytes, size_t length, Bytes want) {
    return length == want.length && memcmp(bytes, want.bytes, length) == 0;
}

// The clip of the frame to the shard is that one, and a buffer that is one byte too small is
// refused.
static inline void demand_clip(const archcaraway_split_points *points, size_t shard, Bytes frame,
                               Bytes want) {
    size_t length;
    DEMAND(archcaraway_clip(points, shard, frame.bytes, frame.length, buffer, ROOM, &length) ==
           ARCHCARAWAY_OK);
    DEMAND(are_same(buffer, length, want));
    DEMAND(archcaraway_clip(points, shard, frame.bytes, frame.length, buffer, want.length - 1,
                            &length) == ARCHCARAWAY_BUFFER);
    DEMAND(length == want.length);
}

#endif
