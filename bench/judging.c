// SPDX-License-Identifier: Apache-2.0
// Times a set on batches of small transactions: by frames, which it writes and whose replies it
// reads; by one call of values; and by values that are added to a batch, which is used again.
//
//     judging [TRANSACTIONS [BATCHES [ROUNDS [KEYS [READS [WRITES]]]]]]
//
// A transaction reads two of KEYS keys and writes two, or READS and WRITES of them, of 16 bytes
// each. All ways judge the same chain, each by its own set, in turn; of ROUNDS rounds the fastest
// counts. It prints the microseconds per transaction of each, and the quotients by that of frames;
// and the parts: of frames writing, decoding and reading the reply, and of a batch that is used
// again adding, and the rest without adding, which is the least that a batch without a frame can
// take. Many short rounds are less disturbed.
//     cc -O2 -Iinclude bench/judging.c out/quick/libarchcaraway.a -o judging
#include <inttypes.h>
#include <stdio.h>
#include <stdlib.h>
#include <time.h>

#include "archcaraway_frames.h"

enum { KEY = 16 };

static void demand(bool holds, const char *what) {
    if (holds) return;
    fprintf(stderr, "judging: %s\n", what);
    exit(1);
}

static double now(void) {
    struct timespec time;
    clock_gettime(CLOCK_MONOTONIC, &time);
    return (double)time.tv_sec + (double)time.tv_nsec / 1e9;
}

static uint64_t random_below(uint64_t *state, uint64_t limit) {
    *state = *state * UINT64_C(6364136223846793005) + UINT64_C(1442695040888963407);
    return (*state >> 33) % limit;
}

// The keys of a batch, drawn anew for each.
typedef struct {
    uint8_t (*keys)[KEY];
    int64_t version, snapshot;
    size_t count, choice, reads, ranges;
} Drawn;

static void draw(Drawn *drawn, uint64_t *state) {
    drawn->version += 1000;
    drawn->snapshot = drawn->version > 5000 ? drawn->version - 5000 : 0;
    for (size_t i = 0; i < drawn->count * drawn->ranges; i++) {
        char text[KEY + 1];
        snprintf(text, sizeof text, "key/%012" PRIu64, random_below(state, drawn->choice));
        memcpy(drawn->keys[i], text, KEY);
    }
}

// The seconds of parts: of one round, and the least of all rounds.
typedef struct {
    double writing, decoding, reading, adding, judging;
} Parts;

static Parts part, least = {1e9, 1e9, 1e9, 1e9, 1e9};

static void take_less(double *all, double one) {
    if (one < *all) *all = one;
}

// A profile shows each way apart, so none is inlined.
#define WAY __attribute__((noinline)) static void

WAY by_frame(archcaraway_set *set, archcaraway_writer *writer, uint8_t *buffer, const Drawn *drawn,
             uint8_t *verdicts) {
    archcaraway_reply reply;
    archcaraway_entry entry;
    size_t length, i = 0;
    double start = now();
    archcaraway_batch_begin(writer, -1, drawn->version, -1);
    for (size_t t = 0; t < drawn->count; t++) {
        archcaraway_batch_transaction(writer, drawn->snapshot, false);
        uint8_t(*keys)[KEY] = drawn->keys + drawn->ranges * t;
        for (size_t r = 0; r < drawn->reads; r++) archcaraway_batch_read_key(writer, keys[r], KEY);
        for (size_t w = drawn->reads; w < drawn->ranges; w++)
            archcaraway_batch_write_key(writer, keys[w], KEY);
    }
    demand(archcaraway_batch_end(writer) == 0, "a frame");
    double written = now();
    part.writing += written - start;
    demand(archcaraway_set_resolve(set, writer->bytes, writer->length, buffer,
                                   ARCHCARAWAY_MAX_REPLY, &length) == 0,
           "a reply");
    double resolved = now();
    demand(archcaraway_reply_read(&reply, buffer, length) == 0, "a reply that is read");
    while (archcaraway_reply_next(&reply, &entry)) verdicts[i++] = (uint8_t)entry.verdict;
    part.reading += now() - resolved;
}

// Points to the drawn keys.
static void borrow(archcaraway_range *ranges, archcaraway_txn *txns, const Drawn *drawn) {
    for (size_t i = 0; i < drawn->count * drawn->ranges; i++) {
        ranges[i].begin.bytes = drawn->keys[i];
        ranges[i].begin.length = KEY;
        ranges[i].single = true;
    }
    for (size_t t = 0; t < drawn->count; t++) {
        const archcaraway_range *reads = ranges + drawn->ranges * t, *writes = reads + drawn->reads;
        archcaraway_txn txn = {
            drawn->snapshot, reads, drawn->reads, writes, drawn->ranges - drawn->reads, false};
        txns[t] = txn;
    }
}

WAY by_value(archcaraway_set *set, archcaraway_range *ranges, archcaraway_txn *txns,
             const Drawn *drawn, uint8_t *verdicts) {
    borrow(ranges, txns, drawn);
    demand(archcaraway_set_judge(set, drawn->version, txns, drawn->count, verdicts, NULL) == 0,
           "verdicts");
}

WAY by_batch(archcaraway_set *set, archcaraway_batch *batch, archcaraway_range *ranges,
             archcaraway_txn *txns, const Drawn *drawn, uint8_t *verdicts) {
    double start = now();
    borrow(ranges, txns, drawn);
    archcaraway_batch_clear(batch);
    for (size_t t = 0; t < drawn->count; t++)
        demand(archcaraway_batch_add(batch, &txns[t]) == 0, "a transaction");
    double added = now();
    part.adding += added - start;
    demand(archcaraway_set_judge_batch(set, drawn->version, batch, verdicts, drawn->count) == 0,
           "verdicts");
    part.judging += now() - added;
}

int main(int words, char **word) {
    const size_t count = words > 1 ? strtoull(word[1], NULL, 10) : 64,
                 batches = words > 2 ? strtoull(word[2], NULL, 10) : 2000;
    const int rounds = words > 3 ? atoi(word[3]) : 5;
    const size_t choice = words > 4 ? strtoull(word[4], NULL, 10) : 100000;
    const size_t reads = words > 5 ? strtoull(word[5], NULL, 10) : 2,
                 writes = words > 6 ? strtoull(word[6], NULL, 10) : 2;
    const size_t all = count * (reads + writes);
    uint8_t *buffer = malloc(ARCHCARAWAY_MAX_REPLY), *one = malloc(count), *two = malloc(count),
            *three = malloc(count);
    archcaraway_range *ranges = calloc(all, sizeof *ranges);
    archcaraway_txn *txns = calloc(count, sizeof *txns);
    Drawn drawn = {malloc(all * KEY), 0, 0, count, choice, reads, reads + writes};
    demand(buffer && one && two && three && ranges && txns && drawn.keys, "memory");
    double least_frames = 1e9, least_values = 1e9, least_again = 1e9;
    for (int round = 0; round < rounds; round++) {
        archcaraway_set a = ARCHCARAWAY_NONE, b = ARCHCARAWAY_NONE, c = ARCHCARAWAY_NONE;
        archcaraway_batch batch = ARCHCARAWAY_NONE;
        archcaraway_writer writer = archcaraway_writer_new(archcaraway_grow_malloc, NULL);
        uint64_t state = 1;
        double frames = 0, values = 0, again = 0;
        demand(archcaraway_set_new(ARCHCARAWAY_WINDOW, ARCHCARAWAY_LIMIT, &a) == 0, "a set");
        demand(archcaraway_set_new(ARCHCARAWAY_WINDOW, ARCHCARAWAY_LIMIT, &b) == 0, "a set");
        demand(archcaraway_set_new(ARCHCARAWAY_WINDOW, ARCHCARAWAY_LIMIT, &c) == 0, "a set");
        demand(archcaraway_batch_new(&batch) == 0, "a batch");
        drawn.version = 0;
        part = (Parts){0, 0, 0, 0, 0};
        for (size_t i = 0; i < batches; i++) {
            draw(&drawn, &state);
            double start = now();
            by_frame(&a, &writer, buffer, &drawn, one);
            double middle = now();
            // What a frame costs that is decoded and then refused, since its version is late.
            size_t none;
            demand(archcaraway_set_resolve(&a, writer.bytes, writer.length, buffer,
                                           ARCHCARAWAY_MAX_REPLY,
                                           &none) == ARCHCARAWAY_VERSION_LATE,
                   "a late frame");
            double decoded = now();
            part.decoding += decoded - middle;
            by_value(&b, ranges, txns, &drawn, two);
            double judged = now();
            by_batch(&c, &batch, ranges, txns, &drawn, three);
            double end = now();
            frames += middle - start;
            values += judged - decoded;
            again += end - judged;
            demand(memcmp(one, two, count) == 0 && memcmp(one, three, count) == 0,
                   "the same verdicts");
        }
        take_less(&least_frames, frames), take_less(&least_values, values),
            take_less(&least_again, again);
        take_less(&least.writing, part.writing), take_less(&least.decoding, part.decoding);
        take_less(&least.reading, part.reading), take_less(&least.adding, part.adding),
            take_less(&least.judging, part.judging);
        archcaraway_writer_free(&writer);
        archcaraway_set_free(&a);
        archcaraway_set_free(&b);
        archcaraway_set_free(&c);
        archcaraway_batch_free(&batch);
    }
    const double each = 1e6 / (double)(count * batches);
    printf("%zu transactions a batch: %.3f us each by frames; %.3f by values, quotient %.2f; %.3f "
           "in a batch that is used again, "
           "quotient %.2f\n",
           count, each * least_frames, each * least_values, least_values / least_frames,
           each * least_again, least_again / least_frames);
    printf(
        "of frames: %.3f us for writing, %.3f for decoding and ranking, %.3f for reading replies\n",
        each * least.writing, each * least.decoding, each * least.reading);
    printf("of a batch that is used again: %.3f us for adding; %.3f without, quotient %.2f\n",
           each * least.adding, each * least.judging, least.judging / least_frames);
    free(buffer), free(one), free(two), free(three), free(ranges), free(txns), free(drawn.keys);
    return 0;
}
