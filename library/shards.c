/* SPDX-License-Identifier: Apache-2.0. Copyright 2026 Archcaraway maintainers. */
/*
 * The functions of archcaraway_shards.h. Not proved.
 *
 * Each tests its pointers and lengths, and calls the proved export of the same name. A proved
 * export takes no array of pointers, so the keys of split points are copied here into one buffer.
 */
#include <stdlib.h>
#include <string.h>

#include "archcaraway_shards.h"
#include "processor.h"

static bool is_none(const archcaraway_split_points *points) {
    return points == NULL || points->at == NULL;
}

/* Whether there are `length` bytes at a pointer, which may be null for none. */
static bool is_span(const uint8_t *bytes, size_t length) {
    return length <= PTRDIFF_MAX && (bytes != NULL || length == 0);
}

static const uint8_t *readable(const uint8_t *bytes) {
    return bytes != NULL ? bytes : archcaraway_no_bytes();
}

static uint8_t *writable(uint8_t *bytes) { return bytes != NULL ? bytes : archcaraway_no_bytes(); }

/* Whether there are bytes at the pointer of each key. */
static bool are_keys(const archcaraway_bytes *keys, size_t count) {
    size_t i;
    if (keys == NULL && count != 0) return false;
    for (i = 0; i < count; i++) {
        if (keys[i].bytes == NULL && keys[i].length != 0) return false;
    }
    return true;
}

/* Tests the lengths of the keys, and adds them up. */
static int measure(const archcaraway_bytes *keys, size_t count, size_t *lengths, size_t *bytes,
                   size_t *bad) {
    size_t i;
    for (i = 0; i < count; i++) {
        if (keys[i].length > ARCHCARAWAY_MAX_KEY) {
            *bad = i;
            return ARCHCARAWAY_FRAME_KEY_LENGTH;
        }
        lengths[i] = keys[i].length;
        *bytes += keys[i].length;
    }
    return ARCHCARAWAY_OK;
}

int archcaraway_split_points_new(const archcaraway_bytes *keys, size_t count,
                                 archcaraway_split_points *points, size_t *bad) {
    size_t lengths[ARCHCARAWAY_MAX_SPLIT_POINTS + 1], bytes = 0, at = 0, index = count, i;
    uint8_t *copy;
    int status;
    if (bad != NULL) *bad = count;
    if (points == NULL) return ARCHCARAWAY_ARGUMENT;
    points->at = NULL;
    if (!are_keys(keys, count)) return ARCHCARAWAY_ARGUMENT;
    if (!processor_fits()) return ARCHCARAWAY_PROCESSOR;
    if (count > ARCHCARAWAY_MAX_SPLIT_POINTS) return ARCHCARAWAY_POINTS_TOO_MANY;
    status = measure(keys, count, lengths, &bytes, &index);
    if (status == ARCHCARAWAY_OK) {
        copy = (uint8_t *)malloc(bytes + 1);
        if (copy == NULL) return ARCHCARAWAY_MEMORY;
        for (i = 0; i < count; i++) {
            if (lengths[i] != 0) memcpy(copy + at, keys[i].bytes, lengths[i]);
            at += lengths[i];
        }
        status = archcaraway_export_split_points_new(copy, bytes, lengths, count, &index,
                                                     &points->at);
        free(copy);
    }
    if (bad != NULL) *bad = index;
    return status;
}

size_t archcaraway_split_points_shards(const archcaraway_split_points *points) {
    void *at = NULL; /* is given the pointer that the handle has */
    if (is_none(points)) return 0;
    return archcaraway_export_split_points_shards(*points, &at);
}

void archcaraway_split_points_free(archcaraway_split_points *points) {
    if (is_none(points)) return;
    archcaraway_export_split_points_free(*points);
    points->at = NULL;
}

int archcaraway_clip(const archcaraway_split_points *points, size_t shard, const uint8_t *frame,
                     size_t length, uint8_t *clip, size_t capacity, size_t *clip_length) {
    void *at = NULL; /* is given the pointer that the handle has */
    if (clip_length == NULL) return ARCHCARAWAY_ARGUMENT;
    *clip_length = 0;
    if (is_none(points) || !is_span(frame, length) || !is_span(clip, capacity)) {
        return ARCHCARAWAY_ARGUMENT;
    }
    return archcaraway_export_clip(*points, shard, readable(frame), length, writable(clip),
                                   capacity, clip_length, &at);
}

int archcaraway_combine(const archcaraway_split_points *points, const uint8_t *frame, size_t length,
                        const uint8_t *replies, size_t replies_length, uint8_t *reply,
                        size_t capacity, size_t *reply_length, size_t *bad) {
    void *at = NULL; /* is given the pointer that the handle has */
    size_t index = 0;
    int status;
    if (bad != NULL) *bad = archcaraway_split_points_shards(points);
    if (reply_length == NULL) return ARCHCARAWAY_ARGUMENT;
    *reply_length = 0;
    if (is_none(points) || !is_span(frame, length) || !is_span(replies, replies_length) ||
        !is_span(reply, capacity)) {
        return ARCHCARAWAY_ARGUMENT;
    }
    status = archcaraway_export_combine(*points, &at, readable(frame), length, readable(replies),
                                        replies_length, writable(reply), capacity, reply_length,
                                        &index);
    if (bad != NULL) *bad = index;
    return status;
}
