/* SPDX-License-Identifier: Apache-2.0. Copyright 2026 Archcaraway maintainers. */
/*
 * The functions of archcaraway.h and archcaraway_frames.h, as symbols of the library. Not proved.
 * batches.c and shards.c have those for batches without frames and for several resolvers.
 *
 * Each function of a set or a core tests its pointers and lengths, and calls the proved export of
 * the same name. A proved export takes a handle by value, and none may compare a pointer with null.
 */
#define ARCHCARAWAY_FRAMES /* the functions of the header are symbols here */
#include "archcaraway_frames.h"

#include "archcaraway_shards.h"
#include "processor.h"

#if defined(__x86_64__) && !defined(ARCHCARAWAY_BASELINE)
#include <cpuid.h>
#include <stdio.h>

/* Those of x86-64-v2. */
bool processor_fits(void) {
    const unsigned needed = bit_SSE3 | bit_SSSE3 | bit_CMPXCHG16B | bit_SSE4_1 | bit_SSE4_2 |
                            bit_POPCNT;
    unsigned a, b, features, d, more;
    if (!__get_cpuid(1, &a, &b, &features, &d)) return false;
    if (!__get_cpuid(0x80000001, &a, &b, &more, &d)) return false;
    return (features & needed) == needed && (more & bit_LAHF_LM) != 0;
}

/* Says at load what every archcaraway_.._new will refuse. */
__attribute__((constructor)) static void report_processor(void) {
    if (processor_fits()) return;
    fprintf(stderr, "archcaraway: %s\n", archcaraway_status_text(ARCHCARAWAY_PROCESSOR));
}
#else
bool processor_fits(void) { return true; }
#endif

/* Whether there are `length` bytes at a pointer, which may be null for none. */
static bool is_span(const uint8_t *bytes, size_t length) {
    return length <= PTRDIFF_MAX && (bytes != NULL || length == 0);
}

static const uint8_t *readable(const uint8_t *bytes) {
    return bytes != NULL ? bytes : archcaraway_no_bytes();
}

static uint8_t *writable(uint8_t *bytes) { return bytes != NULL ? bytes : archcaraway_no_bytes(); }

int archcaraway_version(void) { return ARCHCARAWAY_VERSION; }

int archcaraway_set_new(int64_t window, uint64_t limit, archcaraway_set *set) {
    if (set == NULL) return ARCHCARAWAY_ARGUMENT;
    set->at = NULL;
    if (!processor_fits()) return ARCHCARAWAY_PROCESSOR;
    return archcaraway_export_set_new(window, limit, &set->at);
}

int archcaraway_set_new_at(int64_t window, uint64_t limit, int64_t version, archcaraway_set *set) {
    if (set == NULL) return ARCHCARAWAY_ARGUMENT;
    set->at = NULL;
    if (!processor_fits()) return ARCHCARAWAY_PROCESSOR;
    return archcaraway_export_set_new_at(window, limit, version, &set->at);
}

int archcaraway_set_resolve(archcaraway_set *set, const uint8_t *frame, size_t length,
                            uint8_t *reply, size_t capacity, size_t *reply_length) {
    if (reply_length == NULL) return ARCHCARAWAY_ARGUMENT;
    *reply_length = 0;
    if (set == NULL || set->at == NULL) return ARCHCARAWAY_ARGUMENT;
    if (!is_span(frame, length) || !is_span(reply, capacity)) return ARCHCARAWAY_ARGUMENT;
    return archcaraway_export_set_resolve(*set, readable(frame), length, writable(reply), capacity,
                                          reply_length, &set->at);
}

int archcaraway_set_try_resolve(archcaraway_set *set, const uint8_t *frame, size_t length,
                                uint8_t *reply, size_t capacity, size_t *reply_length) {
    if (reply_length == NULL) return ARCHCARAWAY_ARGUMENT;
    *reply_length = 0;
    if (set == NULL || set->at == NULL) return ARCHCARAWAY_ARGUMENT;
    if (!is_span(frame, length) || !is_span(reply, capacity)) return ARCHCARAWAY_ARGUMENT;
    return archcaraway_export_set_try_resolve(*set, readable(frame), length, writable(reply),
                                              capacity, reply_length, &set->at);
}

uint64_t archcaraway_set_boundaries(const archcaraway_set *set) {
    void *at = NULL; /* is given the pointer that the handle has */
    if (set == NULL || set->at == NULL) return 0;
    return archcaraway_export_set_boundaries(*set, &at);
}

int archcaraway_set_stats(const archcaraway_set *set, archcaraway_stats *stats) {
    void *at = NULL; /* is given the pointer that the handle has */
    if (set == NULL || set->at == NULL || stats == NULL) return ARCHCARAWAY_ARGUMENT;
    archcaraway_export_set_stats(*set, &stats->boundaries, &stats->limit, &stats->version,
                                 &stats->edge, &at);
    stats->held = 0;
    stats->owed = 0;
    return ARCHCARAWAY_OK;
}

uint64_t archcaraway_set_bytes_held(const archcaraway_set *set) {
    void *at = NULL; /* is given the pointer that the handle has */
    if (set == NULL || set->at == NULL) return 0;
    return archcaraway_export_set_bytes_held(*set, &at);
}

int archcaraway_set_trim(archcaraway_set *set) {
    if (set == NULL || set->at == NULL) return ARCHCARAWAY_ARGUMENT;
    return archcaraway_export_set_trim(*set, &set->at);
}

void archcaraway_set_free(archcaraway_set *set) {
    if (set == NULL || set->at == NULL) return;
    archcaraway_export_set_free(*set);
    set->at = NULL;
}

int archcaraway_core_new(uint32_t proxies, int64_t window, uint64_t limit, archcaraway_core *core) {
    if (core == NULL) return ARCHCARAWAY_ARGUMENT;
    core->at = NULL;
    if (!processor_fits()) return ARCHCARAWAY_PROCESSOR;
    return archcaraway_export_core_new(proxies, window, limit, &core->at);
}

int archcaraway_core_new_at(uint32_t proxies, int64_t window, uint64_t limit, int64_t version,
                            archcaraway_core *core) {
    if (core == NULL) return ARCHCARAWAY_ARGUMENT;
    core->at = NULL;
    if (!processor_fits()) return ARCHCARAWAY_PROCESSOR;
    return archcaraway_export_core_new_at(proxies, window, limit, version, &core->at);
}

int archcaraway_core_admit(archcaraway_core *core, uint32_t proxy, const uint8_t *frame,
                           size_t length) {
    if (core == NULL || core->at == NULL || !is_span(frame, length)) return ARCHCARAWAY_ARGUMENT;
    return archcaraway_export_core_admit(*core, proxy, readable(frame), length, &core->at);
}

int archcaraway_core_finish(archcaraway_core *core) {
    if (core == NULL || core->at == NULL) return ARCHCARAWAY_ARGUMENT;
    return archcaraway_export_core_finish(*core, &core->at);
}

int archcaraway_core_give(archcaraway_core *core, uint32_t proxy, uint8_t *answer, size_t capacity,
                          size_t *answer_length, int *kind, int64_t *version) {
    int32_t given = ARCHCARAWAY_NOTHING;
    int status;
    if (answer_length != NULL) *answer_length = 0;
    if (kind != NULL) *kind = ARCHCARAWAY_NOTHING;
    if (version != NULL) *version = -1;
    if (answer_length == NULL || kind == NULL || version == NULL) return ARCHCARAWAY_ARGUMENT;
    if (core == NULL || core->at == NULL || !is_span(answer, capacity)) return ARCHCARAWAY_ARGUMENT;
    status = archcaraway_export_core_give(*core, proxy, writable(answer), capacity, answer_length,
                                          &given, version, &core->at);
    *kind = given;
    return status;
}

uint64_t archcaraway_core_owed(const archcaraway_core *core) {
    void *at = NULL; /* is given the pointer that the handle has */
    if (core == NULL || core->at == NULL) return 0;
    return archcaraway_export_core_owed(*core, &at);
}

int archcaraway_core_next(const archcaraway_core *core, uint32_t *proxy) {
    void *at = NULL; /* is given the pointer that the handle has */
    if (core == NULL || core->at == NULL || proxy == NULL) return 0;
    return archcaraway_export_core_next(*core, proxy, &at);
}

int archcaraway_core_stats(const archcaraway_core *core, archcaraway_stats *stats) {
    void *at = NULL; /* is given the pointer that the handle has */
    if (core == NULL || core->at == NULL || stats == NULL) return ARCHCARAWAY_ARGUMENT;
    archcaraway_export_core_stats(*core, &stats->boundaries, &stats->limit, &stats->version,
                                  &stats->edge, &stats->held, &stats->owed, &at);
    return ARCHCARAWAY_OK;
}

uint64_t archcaraway_core_bytes_held(const archcaraway_core *core) {
    void *at = NULL; /* is given the pointer that the handle has */
    if (core == NULL || core->at == NULL) return 0;
    return archcaraway_export_core_bytes_held(*core, &at);
}

int archcaraway_core_stop(const archcaraway_core *core) {
    void *at = NULL; /* is given the pointer that the handle has */
    if (core == NULL || core->at == NULL) return ARCHCARAWAY_ARGUMENT;
    return archcaraway_export_core_stop(*core, &at);
}

void archcaraway_core_free(archcaraway_core *core) {
    if (core == NULL || core->at == NULL) return;
    archcaraway_export_core_free(*core);
    core->at = NULL;
}

const char *archcaraway_status_text(int status) {
    switch (status) {
    case ARCHCARAWAY_OK: return "ok";
    case ARCHCARAWAY_MEMORY: return "stop 1 Memory: an allocation failed";
    case ARCHCARAWAY_GATE_FULL:
        return "stop 2 GateFull: a batch had to be held, and 1,024 were held already";
    case ARCHCARAWAY_ARENA_FULL:
        return "stop 3 ArenaFull: the writes of the window need more boundaries than the limit";
    case ARCHCARAWAY_FRAME_SHORT: return "wire 1 Short: the bytes end inside the frame";
    case ARCHCARAWAY_FRAME_LONG: return "wire 2 Long: the length of the body is above the limit";
    case ARCHCARAWAY_FRAME_KIND: return "wire 3 Kind: the frame isn't of the expected kind";
    case ARCHCARAWAY_FRAME_TRAILING: return "wire 4 Trailing: bytes remain in the body";
    case ARCHCARAWAY_FRAME_VERSION:
        return "wire 5 Version: a version or a snapshot is outside its limits";
    case ARCHCARAWAY_FRAME_MARKS:
        return "wire 6 Marks: the byte of marks is above 1, or places don't rise";
    case ARCHCARAWAY_FRAME_COUNT: return "wire 7 Count: a count is above its limit";
    case ARCHCARAWAY_FRAME_KEY_LENGTH: return "wire 8 KeyLength: a key is too long";
    case ARCHCARAWAY_FRAME_INVERTED: return "wire 9 Inverted: a range's begin is after its end";
    case ARCHCARAWAY_FRAME_CUT: return "wire 10 Cut: the body ends inside a field";
    case ARCHCARAWAY_FRAME_MEMORY:
        return "wire 11 Memory: an allocation failed, and nothing was done";
    case ARCHCARAWAY_FRAME_FORM: return "wire 13 Form: the form of a range is above 1";
    case ARCHCARAWAY_FRAME_SPELLING: return "wire 14 Spelling: a range of form 0 is a single key";
    case ARCHCARAWAY_VERSION_LATE: return "version: not above that of the batch resolved last";
    case ARCHCARAWAY_ARGUMENT:
        return "argument: null, a number outside its range, or no such proxy";
    case ARCHCARAWAY_BUFFER: return "buffer: too small";
    case ARCHCARAWAY_BEHIND: return "behind: bytes follow the frame";
    case ARCHCARAWAY_PROCESSOR:
        return "processor: lacks x86-64-v2 (SSE4.2, POPCNT), so this build makes no set or core. "
               "For a build without them: make library-unproved PROCESSOR=x86-64";
    case ARCHCARAWAY_POINTS_TOO_MANY: return "split points: more than 63";
    case ARCHCARAWAY_POINTS_NOT_RISING:
        return "split points: a key isn't after the one before it, or the first is empty";
    case ARCHCARAWAY_MISFIT_VERSION: return "misfit: a reply has the version of another batch";
    case ARCHCARAWAY_MISFIT_COUNT: return "misfit: a reply has another number of transactions";
    case ARCHCARAWAY_MISFIT_PLACE: return "misfit: a reply reports a read range that isn't there";
    default: return "unknown status";
    }
}
