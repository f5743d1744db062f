/* SPDX-License-Identifier: Apache-2.0. Copyright 2026 Archcaraway maintainers. */
/*
 * archcaraway_frames.h: writes batches as frames and reads replies, for C11 and later, and for C++.
 *
 * A writer keeps the frame of one batch in a buffer that grows by a function of the caller. Begin a
 * batch, add each transaction with its reads and then its writes, and end the batch:
 *
 *     archcaraway_writer writer = archcaraway_writer_new(archcaraway_grow_malloc, NULL);
 *     archcaraway_batch_begin(&writer, previous, version, received);
 *     archcaraway_batch_transaction(&writer, snapshot, report);
 *     archcaraway_batch_read_key(&writer, key, key_length);
 *     archcaraway_batch_write(&writer, begin, begin_length, end, end_length);
 *     status = archcaraway_batch_end(&writer);
 *     .. writer.bytes, writer.length ..
 *     archcaraway_writer_free(&writer);
 *
 * A writer remembers the first refusal: later calls return it and write nothing, until the next
 * archcaraway_batch_begin. So it is enough to look at the status of archcaraway_batch_end. Frames
 * are of version 2 of the form, byte for byte those of `encode_batch` of the crate `wire`.
 * docs/WIRE.md has the form and its limits.
 *
 * Use the calls for single keys where a key is meant. A range holds its begin and not its end, so
 * [k, k) holds no key. The range of the key k ends with k and one zero byte, which a C string can't
 * have: the string "k\0" has the length 1. Every length counts bytes, zero bytes included.
 *
 * A reader goes over a reply, entry by entry and place by place, and reports the fault that
 * `decode_reply` of the crate `wire` finds first. It allocates nothing.
 *
 * Nothing here is proved. Tests compare it with those two functions, byte for byte. The functions
 * are inline here, and symbols of the library under the same names for other languages.
 */
#ifndef ARCHCARAWAY_FRAMES_H
#define ARCHCARAWAY_FRAMES_H

#include <limits.h>
#include <stdbool.h>
#include <stddef.h>
#include <stdint.h>
#include <stdlib.h>
#include <string.h>

#include "archcaraway.h"

/* How the functions below are defined. The library compiles them as symbols. */
#ifndef ARCHCARAWAY_FRAMES
#define ARCHCARAWAY_FRAMES static inline
#endif

#ifdef __cplusplus
extern "C" {
#endif

/* The greatest length of the body of a frame, in bytes. */
#define ARCHCARAWAY_MAX_BODY ((size_t)4194304)

/*
 * Reallocates. `bytes` is what the function returned last, or null, and its first `length` bytes
 * are kept. Returns memory of `capacity` bytes, or null if there is none; then `bytes` stays valid.
 * With a capacity of 0 it frees `bytes` and returns null.
 */
typedef uint8_t *(*archcaraway_grow)(void *context, uint8_t *bytes, size_t length, size_t capacity);

/* Reallocates by the C library's realloc. */
ARCHCARAWAY_FRAMES uint8_t *archcaraway_grow_malloc(void *context, uint8_t *bytes, size_t length,
                                                    size_t capacity) {
    (void)context;
    (void)length;
    if (capacity == 0) {
        free(bytes);
        return NULL;
    }
    return (uint8_t *)realloc(bytes, capacity);
}

/*
 * Writes the frame of a batch. After archcaraway_batch_end has returned OK, the frame is `length`
 * bytes at `bytes`, until the next call on the writer. The other fields are private.
 */
typedef struct archcaraway_writer {
    uint8_t *bytes;
    size_t length;
    size_t capacity;
    archcaraway_grow grow;
    void *context;
    int status;          /* the first refusal, or OK */
    size_t transaction;  /* where the last transaction begins, or 0 */
    unsigned count;      /* transactions */
    unsigned reads;      /* read ranges of the last transaction */
    unsigned writes;     /* its write ranges */
} archcaraway_writer;

/* Creates a writer without memory, which passes `context` to `grow`. A null `grow` is
 * archcaraway_grow_malloc. */
ARCHCARAWAY_FRAMES archcaraway_writer archcaraway_writer_new(archcaraway_grow grow, void *context) {
    archcaraway_writer writer;
    memset(&writer, 0, sizeof writer);
    writer.grow = grow != NULL ? grow : archcaraway_grow_malloc;
    writer.context = context;
    writer.status = ARCHCARAWAY_ARGUMENT; /* no batch is begun */
    return writer;
}

/* Frees the writer's memory. The writer may be used again. Null does nothing. */
ARCHCARAWAY_FRAMES void archcaraway_writer_free(archcaraway_writer *writer) {
    if (writer == NULL) return;
    if (writer->bytes != NULL) writer->grow(writer->context, writer->bytes, 0, 0);
    *writer = archcaraway_writer_new(writer->grow, writer->context);
}

/* Private: appends `length` bytes, or refuses, and returns whether they were appended. */
static inline bool archcaraway_writer_put(archcaraway_writer *writer, const uint8_t *bytes,
                                          size_t length) {
    if (writer->status != ARCHCARAWAY_OK) return false;
    if (length > ARCHCARAWAY_MAX_FRAME - writer->length) {
        writer->status = ARCHCARAWAY_FRAME_LONG;
        return false;
    }
    if (length > writer->capacity - writer->length) {
        size_t capacity = writer->capacity < 512 ? 512 : 2 * writer->capacity;
        uint8_t *grown;
        if (capacity < writer->length + length) capacity = writer->length + length;
        grown = writer->grow(writer->context, writer->bytes, writer->length, capacity);
        if (grown == NULL) {
            writer->status = ARCHCARAWAY_FRAME_MEMORY;
            return false;
        }
        writer->bytes = grown;
        writer->capacity = capacity;
    }
    if (length != 0) memcpy(writer->bytes + writer->length, bytes, length);
    writer->length += length;
    return true;
}

/* Private: writes a number as `size` bytes, big-endian. */
static inline void archcaraway_spell(uint8_t *to, uint64_t number, size_t size) {
    size_t i;
    for (i = 0; i < size; i++) to[i] = (uint8_t)(number >> (8 * (size - 1 - i)));
}

/* Private: reads a number of `size` bytes, big-endian. */
static inline uint64_t archcaraway_number(const uint8_t *at, size_t size) {
    uint64_t number = 0;
    size_t i;
    for (i = 0; i < size; i++) number = number << 8 | at[i];
    return number;
}

/* Private: refuses. */
static inline int archcaraway_writer_refuse(archcaraway_writer *writer, int status) {
    if (writer->status == ARCHCARAWAY_OK) writer->status = status;
    return writer->status;
}

/* Private: returns whether a batch may have these versions. */
static inline bool archcaraway_are_versions(int64_t previous, int64_t version, int64_t received) {
    return previous >= -1 && version > previous && received >= -1 && version > received;
}

/*
 * Begins a batch instead of the one that the writer has. `previous` is -1 or more and below
 * `version`, `version` is 0 or more, `received` is -1 or more and below `version`.
 *
 * Statuses: OK, FRAME_VERSION, FRAME_MEMORY, ARGUMENT for a null writer.
 */
ARCHCARAWAY_FRAMES int archcaraway_batch_begin(archcaraway_writer *writer, int64_t previous,
                                               int64_t version, int64_t received) {
    uint8_t head[31];
    if (writer == NULL) return ARCHCARAWAY_ARGUMENT;
    writer->length = 0;
    writer->transaction = 0;
    writer->count = 0;
    writer->status = ARCHCARAWAY_OK;
    if (!archcaraway_are_versions(previous, version, received)) {
        return archcaraway_writer_refuse(writer, ARCHCARAWAY_FRAME_VERSION);
    }
    memset(head, 0, sizeof head);
    head[4] = 3;
    archcaraway_spell(head + 5, (uint64_t)previous, 8);
    archcaraway_spell(head + 13, (uint64_t)version, 8);
    archcaraway_spell(head + 21, (uint64_t)received, 8);
    archcaraway_writer_put(writer, head, sizeof head);
    return writer->status;
}

/*
 * Gives the batch these versions instead of those it was begun with.
 *
 * Statuses: as archcaraway_batch_begin, and ARGUMENT if no batch is begun.
 */
ARCHCARAWAY_FRAMES int archcaraway_batch_versions(archcaraway_writer *writer, int64_t previous,
                                                  int64_t version, int64_t received) {
    if (writer == NULL) return ARCHCARAWAY_ARGUMENT;
    if (writer->status != ARCHCARAWAY_OK) return writer->status;
    if (!archcaraway_are_versions(previous, version, received)) {
        return archcaraway_writer_refuse(writer, ARCHCARAWAY_FRAME_VERSION);
    }
    archcaraway_spell(writer->bytes + 5, (uint64_t)previous, 8);
    archcaraway_spell(writer->bytes + 13, (uint64_t)version, 8);
    archcaraway_spell(writer->bytes + 21, (uint64_t)received, 8);
    return ARCHCARAWAY_OK;
}

/*
 * Begins the next transaction of the batch. `snapshot` is its read version, 0 or more. `report`
 * asks for the indices of its conflicting read ranges.
 *
 * Statuses: OK, FRAME_VERSION, FRAME_COUNT, FRAME_LONG, FRAME_MEMORY, ARGUMENT if no batch is
 * begun.
 */
ARCHCARAWAY_FRAMES int archcaraway_batch_transaction(archcaraway_writer *writer, int64_t snapshot,
                                                     bool report) {
    uint8_t head[13];
    size_t at;
    if (writer == NULL) return ARCHCARAWAY_ARGUMENT;
    if (writer->status != ARCHCARAWAY_OK) return writer->status;
    if (snapshot < 0) return archcaraway_writer_refuse(writer, ARCHCARAWAY_FRAME_VERSION);
    if (writer->count == ARCHCARAWAY_MAX_TRANSACTIONS) {
        return archcaraway_writer_refuse(writer, ARCHCARAWAY_FRAME_COUNT);
    }
    at = writer->length;
    memset(head, 0, sizeof head);
    archcaraway_spell(head, (uint64_t)snapshot, 8);
    head[8] = report ? 1 : 0;
    if (archcaraway_writer_put(writer, head, sizeof head)) {
        writer->transaction = at;
        writer->count++;
        writer->reads = 0;
        writer->writes = 0;
        archcaraway_spell(writer->bytes + 29, writer->count, 2);
    }
    return writer->status;
}

/* Private: a begin, an end or a single key. */
static inline void archcaraway_writer_key(archcaraway_writer *writer, const uint8_t *key,
                                          size_t length) {
    uint8_t size[2];
    archcaraway_spell(size, length, 2);
    archcaraway_writer_put(writer, size, sizeof size);
    archcaraway_writer_put(writer, key, length);
}

/* Private: returns whether the begin is after the end. */
static inline bool archcaraway_is_inverted(const uint8_t *begin, size_t begin_length,
                                           const uint8_t *end, size_t end_length) {
    size_t common = begin_length < end_length ? begin_length : end_length;
    int order = common == 0 ? 0 : memcmp(begin, end, common);
    return order != 0 ? order > 0 : begin_length > end_length;
}

/* Private: returns whether the end is the begin and one zero byte. */
static inline bool archcaraway_is_single_key(const uint8_t *begin, size_t begin_length,
                                             const uint8_t *end, size_t end_length) {
    if (end_length != begin_length + 1 || end[begin_length] != 0) return false;
    return begin_length == 0 || memcmp(begin, end, begin_length) == 0;
}

/* Private: where a transaction counts its ranges of a kind, from its begin. */
enum archcaraway_count_at { ARCHCARAWAY_READS_AT = 9, ARCHCARAWAY_WRITES_AT = 11 };

/* Private: refuses a read after a write, and a range that is too many. */
static inline int archcaraway_writer_check(archcaraway_writer *writer,
                                           enum archcaraway_count_at kind) {
    bool is_read = kind == ARCHCARAWAY_READS_AT;
    if (writer == NULL) return ARCHCARAWAY_ARGUMENT;
    if (writer->status != ARCHCARAWAY_OK) return writer->status;
    if (writer->transaction == 0 || (is_read && writer->writes != 0)) {
        return archcaraway_writer_refuse(writer, ARCHCARAWAY_ARGUMENT);
    }
    if ((is_read ? writer->reads : writer->writes) == ARCHCARAWAY_MAX_RANGES) {
        return archcaraway_writer_refuse(writer, ARCHCARAWAY_FRAME_COUNT);
    }
    return ARCHCARAWAY_OK;
}

/* Private: counts a range that was written. */
static inline int archcaraway_writer_count(archcaraway_writer *writer,
                                           enum archcaraway_count_at kind) {
    unsigned *count = kind == ARCHCARAWAY_READS_AT ? &writer->reads : &writer->writes;
    if (writer->status != ARCHCARAWAY_OK) return writer->status;
    ++*count;
    archcaraway_spell(writer->bytes + writer->transaction + (size_t)kind, *count, 2);
    return ARCHCARAWAY_OK;
}

/* Private: adds a single key. */
static inline int archcaraway_writer_single(archcaraway_writer *writer,
                                            enum archcaraway_count_at kind, const uint8_t *key,
                                            size_t length) {
    static const uint8_t form = 1;
    int status = archcaraway_writer_check(writer, kind);
    if (status != ARCHCARAWAY_OK) return status;
    if (key == NULL && length != 0) return archcaraway_writer_refuse(writer, ARCHCARAWAY_ARGUMENT);
    if (length >= ARCHCARAWAY_MAX_KEY) {
        return archcaraway_writer_refuse(writer, ARCHCARAWAY_FRAME_KEY_LENGTH);
    }
    archcaraway_writer_put(writer, &form, 1);
    archcaraway_writer_key(writer, key, length);
    return archcaraway_writer_count(writer, kind);
}

/* Private: adds a range. */
static inline int archcaraway_writer_range(archcaraway_writer *writer,
                                           enum archcaraway_count_at kind, const uint8_t *begin,
                                           size_t begin_length, const uint8_t *end,
                                           size_t end_length) {
    static const uint8_t form = 0;
    int status = archcaraway_writer_check(writer, kind);
    if (status != ARCHCARAWAY_OK) return status;
    if ((begin == NULL && begin_length != 0) || (end == NULL && end_length != 0)) {
        return archcaraway_writer_refuse(writer, ARCHCARAWAY_ARGUMENT);
    }
    if (begin_length > ARCHCARAWAY_MAX_KEY || end_length > ARCHCARAWAY_MAX_KEY) {
        return archcaraway_writer_refuse(writer, ARCHCARAWAY_FRAME_KEY_LENGTH);
    }
    if (archcaraway_is_inverted(begin, begin_length, end, end_length)) {
        return archcaraway_writer_refuse(writer, ARCHCARAWAY_FRAME_INVERTED);
    }
    if (archcaraway_is_single_key(begin, begin_length, end, end_length)) {
        return archcaraway_writer_single(writer, kind, begin, begin_length);
    }
    archcaraway_writer_put(writer, &form, 1);
    archcaraway_writer_key(writer, begin, begin_length);
    archcaraway_writer_key(writer, end, end_length);
    return archcaraway_writer_count(writer, kind);
}

/*
 * Adds a read range [begin, end) to the transaction, before its first write. A begin or an end has
 * 0 to ARCHCARAWAY_MAX_KEY bytes, any bytes. The begin isn't after the end. If they are equal, the
 * range is empty and never conflicts: for one key use archcaraway_batch_read_key.
 *
 * Statuses: OK, FRAME_COUNT, FRAME_KEY_LENGTH, FRAME_INVERTED, FRAME_LONG, FRAME_MEMORY. ARGUMENT
 * if no transaction is begun, if it already has a write, or if a pointer is null.
 */
ARCHCARAWAY_FRAMES int archcaraway_batch_read(archcaraway_writer *writer, const uint8_t *begin,
                                              size_t begin_length, const uint8_t *end,
                                              size_t end_length) {
    return archcaraway_writer_range(writer, ARCHCARAWAY_READS_AT, begin, begin_length, end,
                                    end_length);
}

/*
 * Adds a read of the single key of `length` bytes, 0 to ARCHCARAWAY_MAX_KEY - 1. It counts as a
 * read range. Otherwise as archcaraway_batch_read.
 */
ARCHCARAWAY_FRAMES int archcaraway_batch_read_key(archcaraway_writer *writer, const uint8_t *key,
                                                  size_t length) {
    return archcaraway_writer_single(writer, ARCHCARAWAY_READS_AT, key, length);
}

/* Adds a write range [begin, end) to the transaction. Otherwise as archcaraway_batch_read. */
ARCHCARAWAY_FRAMES int archcaraway_batch_write(archcaraway_writer *writer, const uint8_t *begin,
                                               size_t begin_length, const uint8_t *end,
                                               size_t end_length) {
    return archcaraway_writer_range(writer, ARCHCARAWAY_WRITES_AT, begin, begin_length, end,
                                    end_length);
}

/* Adds a write of a single key. Otherwise as archcaraway_batch_read_key. */
ARCHCARAWAY_FRAMES int archcaraway_batch_write_key(archcaraway_writer *writer, const uint8_t *key,
                                                   size_t length) {
    return archcaraway_writer_single(writer, ARCHCARAWAY_WRITES_AT, key, length);
}

/*
 * Ends the batch: its frame is in the writer. Returns the first refusal since
 * archcaraway_batch_begin, or OK.
 */
ARCHCARAWAY_FRAMES int archcaraway_batch_end(archcaraway_writer *writer) {
    if (writer == NULL) return ARCHCARAWAY_ARGUMENT;
    if (writer->status != ARCHCARAWAY_OK) return writer->status;
    archcaraway_spell(writer->bytes, writer->length - 4, 4);
    return ARCHCARAWAY_OK;
}

/*
 * Finds the end of the frame at the front of `length` bytes, of any kind, and writes its length to
 * `*frame_length`. Use it to divide a stream of frames.
 *
 * Statuses: OK; FRAME_SHORT and FRAME_LONG, with 0 in `*frame_length`; ARGUMENT if a pointer is
 * null.
 */
ARCHCARAWAY_FRAMES int archcaraway_frame_length(const uint8_t *bytes, size_t length,
                                                size_t *frame_length) {
    uint64_t body;
    if (frame_length == NULL) return ARCHCARAWAY_ARGUMENT;
    *frame_length = 0;
    if (bytes == NULL && length != 0) return ARCHCARAWAY_ARGUMENT;
    if (length < 4) return ARCHCARAWAY_FRAME_SHORT;
    body = archcaraway_number(bytes, 4);
    if (body > ARCHCARAWAY_MAX_BODY) return ARCHCARAWAY_FRAME_LONG;
    if (length - 4 < body) return ARCHCARAWAY_FRAME_SHORT;
    *frame_length = (size_t)(4 + body);
    return ARCHCARAWAY_OK;
}

/* Reads a reply. The bytes stay the caller's and must outlive it. */
typedef struct archcaraway_reply {
    int64_t version;   /* of the batch */
    unsigned count;    /* entries: one per transaction, in order */
    size_t length;     /* of the frame, in bytes */
    const uint8_t *at; /* private */
    unsigned left;     /* entries that archcaraway_reply_next hasn't returned */
} archcaraway_reply;

/* The verdict on one transaction, and the indices of its report. */
typedef struct archcaraway_entry {
    int verdict;           /* one of archcaraway_verdict */
    unsigned count;        /* indices; 0 unless the verdict is ARCHCARAWAY_CONFLICT */
    const uint8_t *places; /* private */
} archcaraway_entry;

/* Private: returns the first fault of the entries, which are between the two pointers, or OK. */
static inline int archcaraway_entries_fault(const uint8_t *at, const uint8_t *end, unsigned count) {
    unsigned entry;
    for (entry = 0; entry < count; entry++) {
        unsigned places, place, least = 0;
        uint8_t verdict;
        if (end - at < 1) return ARCHCARAWAY_FRAME_CUT;
        verdict = at[0];
        if (verdict > ARCHCARAWAY_COMMITTED) return ARCHCARAWAY_FRAME_KIND;
        if (end - at < 3) return ARCHCARAWAY_FRAME_CUT;
        places = (unsigned)archcaraway_number(at + 1, 2);
        if (places > (verdict == ARCHCARAWAY_CONFLICT ? ARCHCARAWAY_MAX_RANGES : 0)) {
            return ARCHCARAWAY_FRAME_COUNT;
        }
        at += 3;
        for (place = 0; place < places; place++, at += 2) {
            unsigned number;
            if (end - at < 2) return ARCHCARAWAY_FRAME_CUT;
            number = (unsigned)archcaraway_number(at, 2);
            if (number < least || number >= ARCHCARAWAY_MAX_RANGES) return ARCHCARAWAY_FRAME_MARKS;
            least = number + 1;
        }
    }
    return at == end ? ARCHCARAWAY_OK : ARCHCARAWAY_FRAME_TRAILING;
}

/*
 * Reads the frame of a reply at the front of `length` bytes, all of it, so that
 * archcaraway_reply_next meets no fault. It doesn't look at the bytes after the frame.
 *
 * Statuses: OK, FRAME_.., ARGUMENT if a pointer is null. With any status but OK the reply has no
 * entries.
 */
ARCHCARAWAY_FRAMES int archcaraway_reply_read(archcaraway_reply *reply, const uint8_t *bytes,
                                              size_t length) {
    size_t frame;
    int fault;
    if (reply == NULL) return ARCHCARAWAY_ARGUMENT;
    memset(reply, 0, sizeof *reply);
    fault = archcaraway_frame_length(bytes, length, &frame);
    if (fault != ARCHCARAWAY_OK) return fault;
    if (frame < 5) return ARCHCARAWAY_FRAME_CUT;
    if (bytes[4] != 2) return ARCHCARAWAY_FRAME_KIND;
    if (frame < 13) return ARCHCARAWAY_FRAME_CUT;
    if (bytes[5] > 0x7f) return ARCHCARAWAY_FRAME_VERSION;
    if (frame < 15) return ARCHCARAWAY_FRAME_CUT;
    if (archcaraway_number(bytes + 13, 2) > ARCHCARAWAY_MAX_TRANSACTIONS) {
        return ARCHCARAWAY_FRAME_COUNT;
    }
    fault = archcaraway_entries_fault(bytes + 15, bytes + frame,
                                      (unsigned)archcaraway_number(bytes + 13, 2));
    if (fault != ARCHCARAWAY_OK) return fault;
    reply->version = (int64_t)archcaraway_number(bytes + 5, 8);
    reply->count = (unsigned)archcaraway_number(bytes + 13, 2);
    reply->length = frame;
    reply->at = bytes + 15;
    reply->left = reply->count;
    return ARCHCARAWAY_OK;
}

/* Takes the next entry of a reply that archcaraway_reply_read has read. Returns false if none is
 * left, or if a pointer is null. */
ARCHCARAWAY_FRAMES bool archcaraway_reply_next(archcaraway_reply *reply, archcaraway_entry *entry) {
    if (reply == NULL || entry == NULL || reply->left == 0) return false;
    entry->verdict = reply->at[0];
    entry->count = (unsigned)archcaraway_number(reply->at + 1, 2);
    entry->places = reply->at + 3;
    reply->at += 3 + 2 * (size_t)entry->count;
    reply->left--;
    return true;
}

/*
 * Returns the index of a conflicting read range in its transaction: the one at `index` in the
 * report, which is below `entry->count`. UINT_MAX for any other index, and for null.
 */
ARCHCARAWAY_FRAMES unsigned archcaraway_entry_place(const archcaraway_entry *entry,
                                                    unsigned index) {
    if (entry == NULL || index >= entry->count) return UINT_MAX;
    return (unsigned)archcaraway_number(entry->places + 2 * (size_t)index, 2);
}

#ifdef __cplusplus
}
#endif

#endif
