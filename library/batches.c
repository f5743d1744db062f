/* SPDX-License-Identifier: Apache-2.0. Copyright 2026 Archcaraway maintainers. */
/*
 * The functions of archcaraway.h for batches without frames. Not proved.
 *
 * A proved export takes no array of pointers. So the keys of a transaction are copied here into one
 * buffer, with an archcaraway_span for each range, and given by one call of the proved
 * archcaraway_export_batch_add, which tests them and keeps a copy.
 */
#include <stdlib.h>
#include <string.h>

#include "archcaraway.h"
#include "processor.h"

/* A transaction up to this size takes no memory but the stack. */
enum { FEW_BYTES = 4096, FEW_RANGES = 64 };

/* The keys of a transaction, one by one, and the positions of those of each range. */
typedef struct {
    uint8_t *keys;
    archcaraway_span *spans; /* the read ranges, and then the write ranges */
    size_t key_bytes;
    uint8_t few_keys[FEW_BYTES];
    archcaraway_span few_spans[FEW_RANGES];
} Flat;

static bool is_key(archcaraway_bytes key) { return key.bytes != NULL || key.length == 0; }

/* Tests the pointers and lengths of ranges, and adds up the bytes of their keys. */
static int measure(const archcaraway_range *ranges, size_t count, size_t *bytes) {
    size_t i;
    for (i = 0; i < count; i++) {
        const archcaraway_range *range = &ranges[i];
        const size_t end = range->single ? range->begin.length + 1 : range->end.length;
        if (!is_key(range->begin)) return ARCHCARAWAY_ARGUMENT;
        if (!range->single && !is_key(range->end)) return ARCHCARAWAY_ARGUMENT;
        if (range->begin.length > ARCHCARAWAY_MAX_KEY) return ARCHCARAWAY_FRAME_KEY_LENGTH;
        if (end > ARCHCARAWAY_MAX_KEY) return ARCHCARAWAY_FRAME_KEY_LENGTH;
        *bytes += range->single ? end : range->begin.length + end;
    }
    return ARCHCARAWAY_OK;
}

/* Appends bytes to the keys, and returns the index of the first. */
static size_t append(Flat *flat, archcaraway_bytes key) {
    const size_t at = flat->key_bytes;
    if (key.length != 0) memcpy(flat->keys + at, key.bytes, key.length);
    flat->key_bytes += key.length;
    return at;
}

/* Appends the keys of ranges. A single key shares its bytes with its end, which has a zero byte
 * more. */
static void flatten(Flat *flat, archcaraway_span *spans, const archcaraway_range *ranges,
                    size_t count) {
    size_t i;
    for (i = 0; i < count; i++) {
        const archcaraway_range *range = &ranges[i];
        spans[i].begin = append(flat, range->begin);
        spans[i].begin_length = range->begin.length;
        if (range->single) {
            flat->keys[flat->key_bytes++] = 0;
            spans[i].end = spans[i].begin;
            spans[i].end_length = range->begin.length + 1;
        } else {
            spans[i].end = append(flat, range->end);
            spans[i].end_length = range->end.length;
        }
    }
}

/* Takes memory for that many bytes and ranges, and returns whether there was enough. */
static bool make_room(Flat *flat, size_t bytes, size_t ranges) {
    flat->keys = bytes <= FEW_BYTES ? flat->few_keys : (uint8_t *)malloc(bytes);
    flat->spans = ranges <= FEW_RANGES
                      ? flat->few_spans
                      : (archcaraway_span *)malloc(ranges * sizeof *flat->spans);
    flat->key_bytes = 0;
    return flat->keys != NULL && flat->spans != NULL;
}

static void give_room_back(Flat *flat) {
    if (flat->keys != flat->few_keys) free(flat->keys);
    if (flat->spans != flat->few_spans) free(flat->spans);
}

static bool is_none(const archcaraway_batch *batch) { return batch == NULL || batch->at == NULL; }

int archcaraway_batch_new(archcaraway_batch *batch) {
    if (batch == NULL) return ARCHCARAWAY_ARGUMENT;
    batch->at = NULL;
    if (!processor_fits()) return ARCHCARAWAY_PROCESSOR;
    return archcaraway_export_batch_new(&batch->at);
}

int archcaraway_batch_add(archcaraway_batch *batch, const archcaraway_txn *txn) {
    Flat flat;
    size_t bytes = 0;
    int status;
    if (is_none(batch) || txn == NULL) return ARCHCARAWAY_ARGUMENT;
    if (txn->reads == NULL && txn->read_count != 0) return ARCHCARAWAY_ARGUMENT;
    if (txn->writes == NULL && txn->write_count != 0) return ARCHCARAWAY_ARGUMENT;
    if (txn->read_count > ARCHCARAWAY_MAX_RANGES || txn->write_count > ARCHCARAWAY_MAX_RANGES) {
        return ARCHCARAWAY_FRAME_COUNT;
    }
    status = measure(txn->reads, txn->read_count, &bytes);
    if (status == ARCHCARAWAY_OK) status = measure(txn->writes, txn->write_count, &bytes);
    if (status != ARCHCARAWAY_OK) return status;
    if (make_room(&flat, bytes, txn->read_count + txn->write_count)) {
        flatten(&flat, flat.spans, txn->reads, txn->read_count);
        flatten(&flat, flat.spans + txn->read_count, txn->writes, txn->write_count);
        status = archcaraway_export_batch_add(*batch, txn->snapshot, flat.keys, flat.key_bytes,
                                              flat.spans, txn->read_count,
                                              flat.spans + txn->read_count, txn->write_count,
                                              txn->report, &batch->at);
    } else {
        status = ARCHCARAWAY_FRAME_MEMORY;
    }
    give_room_back(&flat);
    return status;
}

int archcaraway_batch_append(archcaraway_batch *batch, archcaraway_batch *other) {
    if (is_none(batch) || is_none(other) || batch->at == other->at) return ARCHCARAWAY_ARGUMENT;
    return archcaraway_export_batch_append(*batch, *other, &batch->at, &other->at);
}

void archcaraway_batch_drop_last(archcaraway_batch *batch) {
    if (is_none(batch)) return;
    archcaraway_export_batch_drop_last(*batch, &batch->at);
}

void archcaraway_batch_clear(archcaraway_batch *batch) {
    if (is_none(batch)) return;
    archcaraway_export_batch_clear(*batch, &batch->at);
}

size_t archcaraway_batch_room(const archcaraway_batch *batch) {
    void *at = NULL; /* is given the pointer that the handle has */
    if (is_none(batch)) return 0;
    return (size_t)archcaraway_export_batch_room(*batch, &at);
}

void archcaraway_batch_free(archcaraway_batch *batch) {
    if (is_none(batch)) return;
    archcaraway_export_batch_free(*batch);
    batch->at = NULL;
}

/* An export that judges the transactions of a batch. */
typedef int32_t Judge(archcaraway_set set, archcaraway_batch batch, int64_t version,
                      uint8_t *verdicts, size_t capacity, void **set_at, void **batch_at);

static int judge_batch(Judge *judge, archcaraway_set *set, int64_t version,
                       archcaraway_batch *batch, uint8_t *verdicts, size_t capacity) {
    if (set == NULL || set->at == NULL || is_none(batch)) return ARCHCARAWAY_ARGUMENT;
    if (capacity > PTRDIFF_MAX || (verdicts == NULL && capacity != 0)) return ARCHCARAWAY_ARGUMENT;
    return judge(*set, *batch, version, verdicts != NULL ? verdicts : archcaraway_no_bytes(),
                 capacity, &set->at, &batch->at);
}

int archcaraway_set_judge_batch(archcaraway_set *set, int64_t version, archcaraway_batch *batch,
                                uint8_t *verdicts, size_t capacity) {
    return judge_batch(archcaraway_export_set_judge, set, version, batch, verdicts, capacity);
}

int archcaraway_set_try_judge_batch(archcaraway_set *set, int64_t version,
                                    archcaraway_batch *batch, uint8_t *verdicts, size_t capacity) {
    return judge_batch(archcaraway_export_set_try_judge, set, version, batch, verdicts, capacity);
}

int archcaraway_core_admit_batch(archcaraway_core *core, uint32_t proxy, archcaraway_batch *batch,
                                 int64_t previous, int64_t version, int64_t received) {
    if (core == NULL || core->at == NULL || is_none(batch)) return ARCHCARAWAY_ARGUMENT;
    return archcaraway_export_core_admit_batch(*core, proxy, *batch, previous, version, received,
                                               &core->at, &batch->at);
}

/* Adds the transactions to an empty batch. `*bad` is the index of the first bad one, if any. */
static int add_all(archcaraway_batch *batch, const archcaraway_txn *txns, size_t count,
                   size_t *bad) {
    size_t i;
    for (i = 0; i < count; i++) {
        const int status = archcaraway_batch_add(batch, &txns[i]);
        if (status == ARCHCARAWAY_OK) continue;
        if (status != ARCHCARAWAY_FRAME_MEMORY) *bad = i;
        return status;
    }
    return ARCHCARAWAY_OK;
}

static int judge_txns(Judge *judge, archcaraway_set *set, int64_t version,
                      const archcaraway_txn *txns, size_t count, uint8_t *verdicts, size_t *bad) {
    archcaraway_batch batch = ARCHCARAWAY_NONE;
    size_t first_bad = count;
    int status;
    if (bad != NULL) *bad = count;
    if (set == NULL || set->at == NULL) return ARCHCARAWAY_ARGUMENT;
    if ((txns == NULL || verdicts == NULL) && count != 0) return ARCHCARAWAY_ARGUMENT;
    /* There is a set, so the processor fits. */
    if (archcaraway_export_batch_new(&batch.at) != ARCHCARAWAY_OK) return ARCHCARAWAY_FRAME_MEMORY;
    status = add_all(&batch, txns, count, &first_bad);
    if (status == ARCHCARAWAY_OK) {
        status = judge_batch(judge, set, version, &batch, verdicts, count);
    }
    archcaraway_batch_free(&batch);
    if (bad != NULL) *bad = first_bad;
    return status;
}

int archcaraway_set_judge(archcaraway_set *set, int64_t version, const archcaraway_txn *txns,
                          size_t count, uint8_t *verdicts, size_t *bad) {
    return judge_txns(archcaraway_export_set_judge, set, version, txns, count, verdicts, bad);
}

int archcaraway_set_try_judge(archcaraway_set *set, int64_t version, const archcaraway_txn *txns,
                              size_t count, uint8_t *verdicts, size_t *bad) {
    return judge_txns(archcaraway_export_set_try_judge, set, version, txns, count, verdicts, bad);
}
