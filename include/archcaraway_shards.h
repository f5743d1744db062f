/* SPDX-License-Identifier: Apache-2.0. Copyright 2026 Archcaraway maintainers. */
/*
 * archcaraway_shards.h: several resolvers by key range, for C11 and later, and for C++.
 *
 * Split points split all keys into shards, and each shard has its own resolver. A proxy clips a
 * batch to every shard, sends each resolver its clip, and combines their replies:
 *
 *     archcaraway_split_points_new(keys, 2, &points, NULL);
 *     for (shard = 0; shard < 3; shard++) {
 *         archcaraway_clip(&points, shard, frame, length, clip, sizeof clip, &clip_length);
 *         .. send the clip to the resolver of the shard, and append its reply to `replies` ..
 *     }
 *     archcaraway_combine(&points, frame, length, replies, replies_length, reply, sizeof reply,
 *                         &reply_length, &bad);
 *
 * A transaction is committed if every shard commits it. docs/FOUNDATIONDB.md says what several
 * resolvers answer that one wouldn't. What archcaraway.h asks of the caller holds here too.
 */
#ifndef ARCHCARAWAY_SHARDS_H
#define ARCHCARAWAY_SHARDS_H

#include "archcaraway.h"

#ifdef __cplusplus
extern "C" {
#endif

/* The greatest number of split points. */
#define ARCHCARAWAY_MAX_SPLIT_POINTS 63

/* More statuses. archcaraway_status_text gives the text of each. */
enum archcaraway_shards_status {
    ARCHCARAWAY_POINTS_TOO_MANY = 301,   /* more than ARCHCARAWAY_MAX_SPLIT_POINTS */
    ARCHCARAWAY_POINTS_NOT_RISING = 302, /* a split point isn't after the one before it */

    ARCHCARAWAY_MISFIT_VERSION = 311, /* the reply of a shard has the version of another batch */
    ARCHCARAWAY_MISFIT_COUNT = 312,   /* it has another number of transactions */
    ARCHCARAWAY_MISFIT_PLACE = 313    /* it reports a read range that the clip doesn't have */
};

/* Keys that split all keys into shards, in order: one pointer. */
typedef struct archcaraway_split_points {
    void *at;
} archcaraway_split_points;

/*
 * Copies `count` keys as split points, and fills the handle. The first shard begins at the empty
 * key, and each other one at a split point. So the first split point isn't the empty key, and each
 * other one comes after the one before it. Free them with archcaraway_split_points_free.
 *
 * Statuses, of which the first that applies is returned:
 *  - ARGUMENT, PROCESSOR
 *  - POINTS_TOO_MANY
 *  - FRAME_KEY_LENGTH: a key is longer than ARCHCARAWAY_MAX_KEY
 *  - POINTS_NOT_RISING
 *  - MEMORY, which may come instead of FRAME_KEY_LENGTH and POINTS_NOT_RISING
 *  - OK
 * With any status but OK the handle is one of zeros. With FRAME_KEY_LENGTH and POINTS_NOT_RISING,
 * `*bad` is the index of the first key at fault, else `count`. `bad` may be null.
 */
int archcaraway_split_points_new(const archcaraway_bytes *keys, size_t count,
                                 archcaraway_split_points *points, size_t *bad);

/* Returns the number of shards: one more than the split points. 0 if there are none. */
size_t archcaraway_split_points_shards(const archcaraway_split_points *points);

/* Frees split points, and empties the handle. Does nothing for no handle and for null. */
void archcaraway_split_points_free(archcaraway_split_points *points);

/*
 * Clips the batch of a frame of `length` bytes to a shard, from 0 on, and writes the frame of the
 * clip to `clip`, which has `capacity` bytes. The clip has the versions of the batch, and each of
 * its transactions at its index, with those of its ranges that go to the shard. A range goes to
 * each shard that has a key of it, and is cut to the keys of that shard. An empty range goes to the
 * shard of its begin. The frame of the clip is of version 2 of the form, and its length is
 * `*clip_length`.
 *
 * Statuses, of which the first that applies is returned:
 *  - ARGUMENT: also if there is no such shard
 *  - FRAME_.. and BEHIND: the bytes aren't the frame of a batch
 *  - FRAME_LONG: the clip is too long for a frame, which long split points may cause
 *  - BUFFER, with the needed capacity in `*clip_length`
 *  - OK
 * FRAME_MEMORY may come instead of any but ARGUMENT. `*clip_length` is 0 after any other status.
 */
int archcaraway_clip(const archcaraway_split_points *points, size_t shard, const uint8_t *frame,
                     size_t length, uint8_t *clip, size_t capacity, size_t *clip_length);

/*
 * Combines the replies of all shards to the batch of a frame. `frame` is the batch as it was before
 * it was clipped. `replies` are the frames of the replies, one by one, in the order of the shards,
 * each as the resolver of its shard returned it. Writes the frame of the combined reply to `reply`,
 * which has `capacity` bytes. Its length is `*reply_length`.
 *
 * The verdict on a transaction is the least of all shards, in the order conflict, too old,
 * committed. The report has each read range that some shard reports, by its index in the batch.
 *
 * Statuses, of which the first that applies is returned:
 *  - ARGUMENT
 *  - FRAME_.. and BEHIND of the batch: its bytes aren't one frame
 *  - FRAME_.. of a reply, by its first fault. FRAME_SHORT if the reply of a shard is missing
 *  - BEHIND: bytes follow the reply of the last shard
 *  - MISFIT_..: a reply isn't one to the clip of this batch. That of another batch is refused by
 *    its version
 *  - BUFFER, with the needed capacity in `*reply_length`
 *  - OK
 * FRAME_MEMORY may come instead of any but ARGUMENT. `*reply_length` is 0 after any other status.
 * With a status of a reply, and if memory was refused while it was read, `*bad` is its shard, else
 * the number of shards. `bad` may be null.
 *
 * A reply with the right version and the right number of transactions is believed. So the answers
 * of two resolvers must not be exchanged: keep a connection per resolver.
 */
int archcaraway_combine(const archcaraway_split_points *points, const uint8_t *frame, size_t length,
                        const uint8_t *replies, size_t replies_length, uint8_t *reply,
                        size_t capacity, size_t *reply_length, size_t *bad);

/* The proved functions under those above, as those of archcaraway.h. */
int32_t archcaraway_export_split_points_new(const uint8_t *keys, size_t key_bytes,
                                            const size_t *lengths, size_t count, size_t *bad,
                                            void **at);
size_t archcaraway_export_split_points_shards(archcaraway_split_points points, void **at);
void archcaraway_export_split_points_free(archcaraway_split_points points);
int32_t archcaraway_export_clip(archcaraway_split_points points, size_t shard, const uint8_t *frame,
                                size_t length, uint8_t *clip, size_t capacity, size_t *clip_length,
                                void **at);
int32_t archcaraway_export_combine(archcaraway_split_points points, void **at, const uint8_t *frame,
                                   size_t length, const uint8_t *replies, size_t replies_length,
                                   uint8_t *reply, size_t capacity, size_t *reply_length,
                                   size_t *bad);

#ifdef __cplusplus
}
#endif

#endif
