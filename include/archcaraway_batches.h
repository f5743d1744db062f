/* SPDX-License-Identifier: Apache-2.0. Copyright 2026 Archcaraway maintainers. */
/*
 * archcaraway_batches.h: batches without frames, for C11 and later, and for C++. archcaraway.h
 * includes it, and has what the caller promises.
 */
#ifndef ARCHCARAWAY_BATCHES_H
#define ARCHCARAWAY_BATCHES_H

#include "archcaraway.h"

#ifdef __cplusplus
extern "C" {
#endif

/*
 * A key that is borrowed: the library reads it during the call alone. A null pointer with the
 * length 0 is the empty key.
 */
typedef struct archcaraway_bytes {
    const uint8_t *bytes;
    size_t length;
} archcaraway_bytes;

/*
 * The range from `begin` up to `end`, without `end`. If `single` is true it is the key `begin`
 * alone, and `end` isn't looked at. So a range whose end was forgotten isn't taken for a single
 * key.
 */
typedef struct archcaraway_range {
    archcaraway_bytes begin;
    archcaraway_bytes end;
    bool single;
} archcaraway_range;

/* A transaction: its read version and its ranges, at most ARCHCARAWAY_MAX_RANGES of each kind. */
typedef struct archcaraway_txn {
    int64_t snapshot;
    const archcaraway_range *reads;
    size_t read_count;
    const archcaraway_range *writes;
    size_t write_count;
    bool report; /* asks for the report, which a core gives in its reply; judging doesn't */
} archcaraway_txn;

/* Transactions that may be given to sets and cores again and again: one pointer. */
typedef struct archcaraway_batch {
    void *at;
} archcaraway_batch;

/* Verdicts on transactions. */
enum archcaraway_verdict {
    ARCHCARAWAY_CONFLICT = 0,
    ARCHCARAWAY_TOO_OLD = 1,
    ARCHCARAWAY_COMMITTED = 2
};

/* The greatest number of transactions in a batch. */
#define ARCHCARAWAY_MAX_TRANSACTIONS 4096
/* The greatest number of read ranges, and of write ranges, in a transaction. */
#define ARCHCARAWAY_MAX_RANGES 1024
/* The greatest length of a begin or an end, in bytes. A single key is one byte shorter. */
#define ARCHCARAWAY_MAX_KEY 10001

/*
 * Judges `count` transactions as one batch at a version, after all batches that the set resolved
 * before, and remembers what it commits. Writes to `verdicts`, which has room for `count`, one of
 * archcaraway_verdict for each transaction.
 *
 * Statuses, of which the first that applies is returned:
 *  - ARGUMENT: also for a null pointer to ranges or to the bytes of a key, if there are any
 *  - the fault of the first transaction that has one: FRAME_VERSION (its snapshot is negative),
 *    FRAME_COUNT (it has too many ranges, or there are too many transactions), FRAME_KEY_LENGTH,
 *    FRAME_INVERTED. These are the faults that the frame of the batch would have
 *  - FRAME_MEMORY: an allocation failed before the batch was judged
 *  - the stop that the set has met (MEMORY, ARENA_FULL)
 *  - VERSION_LATE: the version is negative, or not above that of the batch resolved last
 *  - MEMORY and ARENA_FULL: the set stops now
 *  - OK
 * With ARGUMENT or a fault of a transaction, `*bad` is the index of the first bad transaction, else
 * `count`. `bad` may be null. After any status but OK and a stop the set is as before. The verdicts
 * don't change after any status but OK.
 */
int archcaraway_set_judge(archcaraway_set *set, int64_t version, const archcaraway_txn *txns,
                          size_t count, uint8_t *verdicts, size_t *bad);

/*
 * Judges transactions as archcaraway_set_judge does. But if they don't fit the limit, they are
 * refused with ARENA_FULL, and the set is as before, as with archcaraway_set_try_resolve.
 */
int archcaraway_set_try_judge(archcaraway_set *set, int64_t version, const archcaraway_txn *txns,
                              size_t count, uint8_t *verdicts, size_t *bad);

/*
 * Creates a batch of no transaction, and fills the handle. Free it with archcaraway_batch_free.
 *
 * Statuses: OK, MEMORY, ARGUMENT, PROCESSOR. With any status but OK the handle is one of zeros.
 */
int archcaraway_batch_new(archcaraway_batch *batch);

/*
 * Adds a transaction after the others. The keys are copied.
 *
 * Statuses: OK, ARGUMENT, FRAME_VERSION, FRAME_COUNT, FRAME_KEY_LENGTH, FRAME_INVERTED,
 * FRAME_MEMORY, as archcaraway_set_judge. After any status but OK the batch is as before.
 */
int archcaraway_batch_add(archcaraway_batch *batch, const archcaraway_txn *txn);

/*
 * Appends the transactions of `other`, which another thread may have added, and which stay there.
 *
 * Statuses: OK; ARGUMENT, also if both are one batch; FRAME_COUNT if there would be too many
 * transactions; FRAME_MEMORY. After any status but OK the batch is as before.
 */
int archcaraway_batch_append(archcaraway_batch *batch, archcaraway_batch *other);

/* Removes the last transaction, if there is one. Its memory is kept until the batch is cleared. */
void archcaraway_batch_drop_last(archcaraway_batch *batch);

/* Removes all transactions. Their memory is kept for others. */
void archcaraway_batch_clear(archcaraway_batch *batch);

/* Returns how many more transactions may be added. 0 if there is no batch. */
size_t archcaraway_batch_room(const archcaraway_batch *batch);

/* Frees a batch, and empties the handle. Does nothing for no handle and for null. */
void archcaraway_batch_free(archcaraway_batch *batch);

/*
 * Judges the transactions of a batch, as archcaraway_set_judge does. `verdicts` has room for
 * `capacity` of them. The batch stays as it is.
 *
 * Statuses, of which the first that applies is returned: ARGUMENT; the stop that the set has met;
 * VERSION_LATE; BUFFER, if there is room for fewer verdicts than transactions; FRAME_MEMORY; the
 * stop that the set meets now; OK.
 */
int archcaraway_set_judge_batch(archcaraway_set *set, int64_t version, archcaraway_batch *batch,
                                uint8_t *verdicts, size_t capacity);

/*
 * Judges the transactions of a batch as archcaraway_set_judge_batch does. But if they don't fit the
 * limit, they are refused with ARENA_FULL, and the set is as before.
 */
int archcaraway_set_try_judge_batch(archcaraway_set *set, int64_t version,
                                    archcaraway_batch *batch, uint8_t *verdicts, size_t capacity);

/*
 * Takes the transactions of a batch from a proxy, as the batch of these versions: as
 * archcaraway_core_admit does of a frame. The batch stays as it is.
 *
 * Statuses, of which the first that applies is returned:
 *  - ARGUMENT: null, or no such proxy
 *  - the stop that the core has met (MEMORY, GATE_FULL, ARENA_FULL)
 *  - ARGUMENT: no batch may have these versions
 *  - FRAME_MEMORY: an allocation failed before the batch was taken
 *  - the stop that the core meets now
 *  - OK
 */
int archcaraway_core_admit_batch(archcaraway_core *core, uint32_t proxy, archcaraway_batch *batch,
                                 int64_t previous, int64_t version, int64_t received);

/* The proved functions under those above, as in archcaraway.h: they test no pointer. */

/* The positions of the keys of a range among the bytes of the keys of its transaction. */
typedef struct archcaraway_span {
    size_t begin, begin_length;
    size_t end, end_length;
} archcaraway_span;

int32_t archcaraway_export_batch_new(void **at);
int32_t archcaraway_export_batch_add(archcaraway_batch batch, int64_t snapshot,
                                     const uint8_t *keys, size_t key_bytes,
                                     const archcaraway_span *reads, size_t read_count,
                                     const archcaraway_span *writes, size_t write_count,
                                     bool report, void **at);
int32_t archcaraway_export_batch_append(archcaraway_batch batch, archcaraway_batch other, void **at,
                                        void **other_at);
void archcaraway_export_batch_drop_last(archcaraway_batch batch, void **at);
void archcaraway_export_batch_clear(archcaraway_batch batch, void **at);
uint64_t archcaraway_export_batch_room(archcaraway_batch batch, void **at);
void archcaraway_export_batch_free(archcaraway_batch batch);
int32_t archcaraway_export_set_judge(archcaraway_set set, archcaraway_batch batch, int64_t version,
                                     uint8_t *verdicts, size_t capacity, void **set_at,
                                     void **batch_at);
int32_t archcaraway_export_set_try_judge(archcaraway_set set, archcaraway_batch batch,
                                         int64_t version, uint8_t *verdicts, size_t capacity,
                                         void **set_at, void **batch_at);
int32_t archcaraway_export_core_admit_batch(archcaraway_core core, uint32_t proxy,
                                            archcaraway_batch batch, int64_t previous,
                                            int64_t version, int64_t received, void **core_at,
                                            void **batch_at);

#ifdef __cplusplus
}
#endif

#endif
