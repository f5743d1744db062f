/* SPDX-License-Identifier: Apache-2.0. Copyright 2026 Archcaraway maintainers. */
/*
 * archcaraway.h: the conflict set and the resolver over values, for C11 and later, and for C++.
 *
 * A set judges batches of transactions in the order of their versions. A core does the same for the
 * chain of versions of many proxies: it holds batches that come too early, answers repeats, and
 * owes each proxy its answers in order. A batch is given as one frame, of either version of the
 * wire form, and a reply comes as one frame. docs/WIRE.md has the form, archcaraway_frames.h writes
 * and reads it, docs/EMBEDDING.md says how to link, docs/C-API.md what holds for all calls.
 *
 * What the caller promises, in every call:
 *  - A handle was filled by a call of this library that creates a set or a core, with status 0, and
 *    not freed since. It isn't copied to be used as a second one. A handle of zeros
 *    (ARCHCARAWAY_NONE) is none: every call refuses it.
 *  - A handle is used by one call at a time, on any thread. If two threads use one handle, a lock,
 *    a join or a queue orders their calls. Different handles may be used by different threads at
 *    the same time.
 *  - A pointer points to what its parameter says: `frame` to `length` bytes that can be read, a
 *    buffer to `capacity` bytes that can be read and written, a result to one value. No two of them
 *    overlap, and none is in the memory of a handle. The bytes don't change during the call. The
 *    library keeps none of these pointers after it.
 *  - The program's malloc, realloc and free are of one allocator. No call is made from a signal
 *    handler, nor in the child of a fork of a process with threads.
 *
 * Then no call aborts, prints, exits, waits, or reads or writes beyond what it is given, for any
 * numbers and bytes. A null pointer is refused as ARCHCARAWAY_ARGUMENT, and so is a null frame or
 * buffer of more than 0 bytes.
 *
 * The library owns the object of a handle. The caller owns everything else: handles, frames,
 * buffers and results.
 */
#ifndef ARCHCARAWAY_H
#define ARCHCARAWAY_H

#include <stdbool.h>
#include <stddef.h>
#include <stdint.h>

#ifdef __cplusplus
extern "C" {
#endif

/* The release that this header is of. */
#define ARCHCARAWAY_VERSION_MAJOR 0
#define ARCHCARAWAY_VERSION_MINOR 2
#define ARCHCARAWAY_VERSION_PATCH 0
#define ARCHCARAWAY_VERSION_TEXT "0.2.0"
/* The same as one number: 1,000,000 * major + 1,000 * minor + patch. */
#define ARCHCARAWAY_VERSION                                                                        \
    (1000000 * ARCHCARAWAY_VERSION_MAJOR + 1000 * ARCHCARAWAY_VERSION_MINOR +                      \
     ARCHCARAWAY_VERSION_PATCH)

/* The window of FoundationDB 7.1 in versions, about five seconds. The greatest window. */
#define ARCHCARAWAY_WINDOW INT64_C(5000000)
#define ARCHCARAWAY_MAX_WINDOW INT64_C(1099511627776)
/* A limit that suits most uses, in boundaries. The greatest limit. */
#define ARCHCARAWAY_LIMIT UINT64_C(1000000)
#define ARCHCARAWAY_MAX_LIMIT UINT64_C(16777216)
/* The greatest number of proxies of a core. */
#define ARCHCARAWAY_MAX_PROXIES 64
/* The greatest length of a frame in bytes: four bytes of length, and a body. */
#define ARCHCARAWAY_MAX_FRAME ((size_t)4194308)
/* The greatest length of the frame of a reply in bytes, to any batch that fits a frame. */
#define ARCHCARAWAY_MAX_REPLY ARCHCARAWAY_MAX_FRAME

/*
 * Statuses. archcaraway_status_text gives the text of each. The numbers don't change while the
 * shared library is libarchcaraway.so.1.
 *
 * 1 to 3 are stops. An object that met one returns the same stop from every later call that would
 * take a batch, and its earlier answers are a prefix of those without a stop. From a call that
 * creates an object, ARCHCARAWAY_MEMORY means that there is no object. From archcaraway_set_try_..,
 * ARCHCARAWAY_ARENA_FULL is no stop, unless the set has met it before: the set continues.
 *
 * 101 to 115 are faults of a frame, with the numbers of docs/WIRE.md and 100.
 * ARCHCARAWAY_FRAME_MEMORY is no fault of the frame: an allocation failed while a frame was read or
 * written, nothing was done, and the call may be repeated.
 */
enum archcaraway_status {
    ARCHCARAWAY_OK = 0,

    ARCHCARAWAY_MEMORY = 1,     /* stop: an allocation failed */
    ARCHCARAWAY_GATE_FULL = 2,  /* stop: a batch had to be held, and 1,024 were held; cores only */
    ARCHCARAWAY_ARENA_FULL = 3, /* stop: the writes of the window need more boundaries */

    ARCHCARAWAY_FRAME_SHORT = 101,      /* the bytes end inside the frame */
    ARCHCARAWAY_FRAME_LONG = 102,       /* the length of the body is above the limit */
    ARCHCARAWAY_FRAME_KIND = 103,       /* the frame isn't that of a batch */
    ARCHCARAWAY_FRAME_TRAILING = 104,   /* bytes remain in the body */
    ARCHCARAWAY_FRAME_VERSION = 105,    /* a version or a snapshot is outside its limits */
    ARCHCARAWAY_FRAME_MARKS = 106,      /* the byte of marks is above 1 */
    ARCHCARAWAY_FRAME_COUNT = 107,      /* a count is above its limit */
    ARCHCARAWAY_FRAME_KEY_LENGTH = 108, /* a key is too long */
    ARCHCARAWAY_FRAME_INVERTED = 109,   /* a range's begin is after its end */
    ARCHCARAWAY_FRAME_CUT = 110,        /* the body ends inside a field */
    ARCHCARAWAY_FRAME_MEMORY = 111,     /* an allocation failed, and nothing was done */
    ARCHCARAWAY_FRAME_FORM = 113,       /* the form of a range is above 1 */
    ARCHCARAWAY_FRAME_SPELLING = 114,   /* a range of form 0 is a single key */

    ARCHCARAWAY_VERSION_LATE = 201, /* the version isn't above that of the batch resolved last */
    ARCHCARAWAY_ARGUMENT = 202,     /* null, a number outside its range, or no such proxy */
    ARCHCARAWAY_BUFFER = 203,       /* the buffer is too small; the needed length is returned */
    ARCHCARAWAY_BEHIND = 204,       /* bytes follow the frame */
    ARCHCARAWAY_PROCESSOR = 205     /* the processor lacks instructions that the library needs */
};

/* Kinds of what a core gives. */
enum archcaraway_kind {
    ARCHCARAWAY_NOTHING = 0, /* no answer is owed to the proxy */
    ARCHCARAWAY_REPLY = 1,   /* the reply to a batch: a frame */
    ARCHCARAWAY_NEVER = 2,   /* the batch is a repeat whose reply is no longer kept */
    ARCHCARAWAY_HELD = 3     /* its previous version hadn't come when the core was finished */
};

/* A conflict set, and a resolver over values: each one pointer, owned by the caller. */
typedef struct archcaraway_set {
    void *at;
} archcaraway_set;
typedef struct archcaraway_core {
    void *at;
} archcaraway_core;

/* No handle, to begin with. */
#define ARCHCARAWAY_NONE {0}

/*
 * Returns the release of the library that is linked, as ARCHCARAWAY_VERSION is that of the header.
 */
int archcaraway_version(void);

/*
 * Returns the text of a status, in English: a constant, never null. "unknown status" for any other
 * number. The part before the first colon is what `replay` prints.
 */
const char *archcaraway_status_text(int status);

/*
 * Creates a set that has resolved nothing, and fills the handle. It remembers writes of the last
 * `window` versions, 1 to ARCHCARAWAY_MAX_WINDOW. It never keeps more boundaries than `limit`, 1 to
 * ARCHCARAWAY_MAX_LIMIT. A range written within the window may need two boundaries, and their
 * bytes. Free the set with archcaraway_set_free.
 *
 * Statuses: OK, MEMORY, ARGUMENT, PROCESSOR. With any status but OK the handle is one of zeros.
 */
int archcaraway_set_new(int64_t window, uint64_t limit, archcaraway_set *set);

/*
 * Creates a set that starts at `version`, from -1 on. What was written up to that version isn't
 * known: each read range with a snapshot below it conflicts, unless the range is empty. The other
 * reads are judged by what the set resolves. The first batch has a version above `version`. With -1
 * this is archcaraway_set_new.
 *
 * Statuses: those of archcaraway_set_new; ARENA_FULL if `limit` is below 3 and `version` isn't -1.
 */
int archcaraway_set_new_at(int64_t window, uint64_t limit, int64_t version, archcaraway_set *set);

/*
 * Judges the batch of a frame of `length` bytes after all batches resolved before, and remembers
 * what it commits. Writes the frame of its reply to `reply`, which has `capacity` bytes, and the
 * length of that frame to `*reply_length`.
 *
 * `capacity` must be at least the length of the longest reply to that batch:
 *     15 + 3 * transactions + 2 * read ranges of the transactions that ask for the report
 * ARCHCARAWAY_MAX_REPLY is enough for every batch.
 *
 * Statuses, of which the first that applies is returned:
 *  - ARGUMENT
 *  - the stop that the set has met (MEMORY, ARENA_FULL)
 *  - FRAME_.. and BEHIND
 *  - VERSION_LATE: the batch's version isn't above that of the batch resolved last
 *  - BUFFER: `*reply_length` is the capacity that is needed
 *  - MEMORY and ARENA_FULL: the set stops now
 *  - OK
 * After any status but OK and a stop the set is as before, and the batch may be given again. A set
 * doesn't use `previous` and `received` of the batch. With any status but OK and BUFFER,
 * `*reply_length` is 0. The bytes of `reply` after that length don't change.
 */
int archcaraway_set_resolve(archcaraway_set *set, const uint8_t *frame, size_t length,
                            uint8_t *reply, size_t capacity, size_t *reply_length);

/*
 * Judges the batch of a frame, and remembers what it commits, as archcaraway_set_resolve does. But
 * if the batch doesn't fit the limit, it is refused with ARENA_FULL, and the set is as before: it
 * doesn't stop, and forgets nothing. Then send fewer transactions, or send the batch at a later
 * version: boundaries of writes that have left the window make room. Or create a set at the version
 * of the batch resolved last, by archcaraway_set_new_at.
 *
 * The statuses are those of archcaraway_set_resolve, and MEMORY is a stop as there. A set that
 * resolves by this function and archcaraway_set_try_judge alone never stops with ARENA_FULL.
 *
 * If there isn't room without a sweep of boundaries that have left the window, the call looks at
 * every boundary of the set first. Else it takes as long as archcaraway_set_resolve.
 */
int archcaraway_set_try_resolve(archcaraway_set *set, const uint8_t *frame, size_t length,
                                uint8_t *reply, size_t capacity, size_t *reply_length);

/*
 * Returns the number of boundaries that the set keeps: the keys where the version that it remembers
 * changes, and one at the empty key. At most the limit. 0 if there is no set.
 */
uint64_t archcaraway_set_boundaries(const archcaraway_set *set);

/* Numbers about a set or a core. */
typedef struct archcaraway_stats {
    uint64_t boundaries; /* as archcaraway_set_boundaries */
    uint64_t limit;
    int64_t version; /* of the batch resolved last, or that at which the object started */
    int64_t edge;    /* what was written below this version is forgotten, or will be */
    uint64_t held;   /* batches that wait for their previous version; 0 for a set */
    uint64_t owed;   /* as archcaraway_core_owed; 0 for a set */
} archcaraway_stats;

/* Fills in the stats of a set. Statuses: OK, ARGUMENT. */
int archcaraway_set_stats(const archcaraway_set *set, archcaraway_stats *stats);

/*
 * Returns about how many bytes of memory the set has used for its boundaries and its filter of
 * single keys. Memory of removed boundaries counts until archcaraway_set_trim. What is kept from
 * batch to batch and what malloc adds don't count. 0 if there is no set.
 */
uint64_t archcaraway_set_bytes_held(const archcaraway_set *set);

/*
 * Frees memory that the set doesn't need for its boundaries: it copies these into new memory, and
 * frees what they had and what is kept from batch to batch. Call it when a set keeps far fewer
 * boundaries than it did. It takes about as long as writing each of them once.
 *
 * Statuses: OK; ARGUMENT; FRAME_MEMORY if an allocation failed. The set is as before with every
 * status. A set that has stopped can be trimmed too, and stays stopped.
 */
int archcaraway_set_trim(archcaraway_set *set);

/* Frees a set, and empties the handle. Does nothing for no handle and for null. */
void archcaraway_set_free(archcaraway_set *set);

/*
 * Creates a core for `proxies` proxies, 1 to ARCHCARAWAY_MAX_PROXIES, which has taken nothing, and
 * fills the handle. Proxies have the numbers 0 to `proxies` - 1. `window` and `limit` are those of
 * archcaraway_set_new. Free the core with archcaraway_core_free.
 *
 * Statuses: OK, MEMORY, ARGUMENT, PROCESSOR. With any status but OK the handle is one of zeros.
 */
int archcaraway_core_new(uint32_t proxies, int64_t window, uint64_t limit, archcaraway_core *core);

/*
 * Creates a core that starts at `version`, from -1 on: the first batch that it processes has that
 * previous version. Batches with a lower one are repeats whose replies aren't kept, and get
 * ARCHCARAWAY_NEVER. Those with a higher one are held. What was written up to `version` isn't
 * known, as in archcaraway_set_new_at. With -1 this is archcaraway_core_new.
 *
 * Statuses: those of archcaraway_core_new; ARENA_FULL if `limit` is below 3 and `version` isn't -1.
 */
int archcaraway_core_new_at(uint32_t proxies, int64_t window, uint64_t limit, int64_t version,
                            archcaraway_core *core);

/*
 * Takes the batch of a frame of `length` bytes from a proxy. It is held until its previous version
 * was processed, or it is answered, together with all held batches that have become due.
 * archcaraway_core_give delivers the answers.
 *
 * Statuses, of which the first that applies is returned:
 *  - ARGUMENT
 *  - the stop that the core has met (MEMORY, GATE_FULL, ARENA_FULL)
 *  - FRAME_.. and BEHIND
 *  - the stop that the core meets now
 *  - OK
 * After a stop the core takes no more batches, and still owes the answers made before. After any
 * other status but OK nothing was taken.
 */
int archcaraway_core_admit(archcaraway_core *core, uint32_t proxy, const uint8_t *frame,
                           size_t length);

/*
 * Answers every batch that is still held with `held`, in order of arrival: for the end of the
 * input. The core may take more after it.
 *
 * Statuses: ARGUMENT; the stop that the core has met, or MEMORY, if it stops now; OK.
 */
int archcaraway_core_finish(archcaraway_core *core);

/*
 * Gives a proxy the oldest answer owed to it. `*kind` is one of archcaraway_kind, and `*version`
 * the version of the batch that is answered, or -1. A reply is a frame, written to `answer`, which
 * has `capacity` bytes. Its length is `*answer_length`, which is 0 for the other kinds.
 *
 * Statuses: OK; ARGUMENT; BUFFER, with the needed capacity in `*answer_length`; FRAME_MEMORY. After
 * any status but OK the answer is still owed, `*kind` is ARCHCARAWAY_NOTHING and `*version` is -1.
 * A core continues to give answers after a stop.
 */
int archcaraway_core_give(archcaraway_core *core, uint32_t proxy, uint8_t *answer, size_t capacity,
                          size_t *answer_length, int *kind, int64_t *version);

/* Returns the number of answers owed to all proxies. 0 if there is no core. */
uint64_t archcaraway_core_owed(const archcaraway_core *core);

/*
 * Finds a proxy that is owed an answer: writes the lowest number of those to `*proxy` and returns
 * 1. Returns 0 and writes nothing if no answer is owed, if there is no core and for null.
 */
int archcaraway_core_next(const archcaraway_core *core, uint32_t *proxy);

/* Fills in the stats of a core. Statuses: OK, ARGUMENT. */
int archcaraway_core_stats(const archcaraway_core *core, archcaraway_stats *stats);

/*
 * Returns the bytes of the core's set, as archcaraway_set_bytes_held. Batches held and answers owed
 * don't count. 0 if there is no core.
 */
uint64_t archcaraway_core_bytes_held(const archcaraway_core *core);

/* Returns the stop that the core has met, 1 to 3, or 0. ARGUMENT if there is no core. */
int archcaraway_core_stop(const archcaraway_core *core);

/* Frees a core, with all that it holds and owes. Does nothing for no handle and for null. */
void archcaraway_core_free(archcaraway_core *core);

/* The former name of archcaraway_status_text. */
static inline const char *archcaraway_text(int status) { return archcaraway_status_text(status); }

/*
 * The proved functions under those above. Each takes a handle by value and writes the pointer of
 * the same object to `*at`. They test no pointer: call the functions above. Here a frame or buffer
 * of 0 bytes needs a pointer that isn't null.
 */
int32_t archcaraway_export_set_new(int64_t window, uint64_t limit, void **at);
int32_t archcaraway_export_set_new_at(int64_t window, uint64_t limit, int64_t version, void **at);
int32_t archcaraway_export_core_new_at(uint32_t proxies, int64_t window, uint64_t limit,
                                       int64_t version, void **at);
void archcaraway_export_set_stats(archcaraway_set set, uint64_t *boundaries, uint64_t *limit,
                                  int64_t *version, int64_t *edge, void **at);
void archcaraway_export_core_stats(archcaraway_core core, uint64_t *boundaries, uint64_t *limit,
                                   int64_t *version, int64_t *edge, uint64_t *held, uint64_t *owed,
                                   void **at);
int32_t archcaraway_export_core_next(archcaraway_core core, uint32_t *proxy, void **at);
int32_t archcaraway_export_set_resolve(archcaraway_set set, const uint8_t *frame, size_t length,
                                       uint8_t *reply, size_t capacity, size_t *reply_length,
                                       void **at);
int32_t archcaraway_export_set_try_resolve(archcaraway_set set, const uint8_t *frame, size_t length,
                                           uint8_t *reply, size_t capacity, size_t *reply_length,
                                           void **at);
uint64_t archcaraway_export_set_boundaries(archcaraway_set set, void **at);
uint64_t archcaraway_export_set_bytes_held(archcaraway_set set, void **at);
int32_t archcaraway_export_set_trim(archcaraway_set set, void **at);
void archcaraway_export_set_free(archcaraway_set set);
int32_t archcaraway_export_core_new(uint32_t proxies, int64_t window, uint64_t limit, void **at);
int32_t archcaraway_export_core_admit(archcaraway_core core, uint32_t proxy, const uint8_t *frame,
                                      size_t length, void **at);
int32_t archcaraway_export_core_finish(archcaraway_core core, void **at);
int32_t archcaraway_export_core_give(archcaraway_core core, uint32_t proxy, uint8_t *answer,
                                     size_t capacity, size_t *answer_length, int32_t *kind,
                                     int64_t *version, void **at);
uint64_t archcaraway_export_core_owed(archcaraway_core core, void **at);
uint64_t archcaraway_export_core_bytes_held(archcaraway_core core, void **at);
int32_t archcaraway_export_core_stop(archcaraway_core core, void **at);
void archcaraway_export_core_free(archcaraway_core core);

/* A byte for frames and buffers of 0 bytes, so that their pointer isn't null. Never read or
 * written. */
static inline uint8_t *archcaraway_no_bytes(void) {
    static uint8_t none;
    return &none;
}

#ifdef __cplusplus
}
#endif

#include "archcaraway_batches.h"

#endif
