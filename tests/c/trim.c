// Trims sets: how many bytes that frees, what each refused allocation does, and that no reply
// changes. The bytes that a set reports are never more than malloc gave for it.
//
//     trim CHAINS SEED
//
// Linked with --wrap for malloc, realloc and free.
#include <stdlib.h>

#include "refusing.h"
#include "values.h"

enum { WINDOW = 100, BATCHES = 50, WRITES = 1000, KEY = 100 };

static bool are_same(const archcaraway_set *one, const archcaraway_set *other) {
    archcaraway_stats a, b;
    DEMAND(archcaraway_set_stats(one, &a) == ARCHCARAWAY_OK &&
           archcaraway_set_stats(other, &b) == ARCHCARAWAY_OK);
    return a.boundaries == b.boundaries && a.limit == b.limit && a.version == b.version &&
           a.edge == b.edge;
}

// The bytes that a set reports, which malloc gave for it.
static uint64_t reported(const archcaraway_set *set, long given) {
    const uint64_t bytes = archcaraway_set_bytes_held(set);
    DEMAND(bytes > 0 && bytes <= (uint64_t)given);
    return bytes;
}

// Judges transactions of one single key each, written or read at the snapshot before the version.
static void judge(archcaraway_set *set, int64_t version, size_t first, size_t count, bool writes,
                  uint8_t *verdicts) {
    static char keys[WRITES][KEY + 1];
    static archcaraway_range ranges[WRITES];
    static archcaraway_txn txns[WRITES];
    for (size_t i = 0; i < count; i++) {
        snprintf(keys[i], sizeof keys[i], "%0*zu", KEY, first + i);
        ranges[i] = (archcaraway_range){{(const uint8_t *)keys[i], KEY}, {NULL, 0}, true};
        txns[i] = (archcaraway_txn){
            version == 0 ? 0 : version - 1, ranges + i, !writes, ranges + i, writes, false};
    }
    DEMAND(LIBRARY(archcaraway_set_judge(set, version, txns, count, verdicts, NULL)) ==
           ARCHCARAWAY_OK);
}

// A set that had 100,001 boundaries and has few.
static archcaraway_set swept(void) {
    static uint8_t verdicts[WRITES];
    archcaraway_set set = ARCHCARAWAY_NONE;
    int64_t version = 0;
    DEMAND(LIBRARY(archcaraway_set_new(WINDOW, ARCHCARAWAY_MAX_LIMIT, &set)) == ARCHCARAWAY_OK);
    for (; version < BATCHES; version++)
        judge(&set, version, (size_t)version * WRITES, WRITES, true, verdicts);
    DEMAND(archcaraway_set_boundaries(&set) == 2 * BATCHES * WRITES + 1);
    for (version += WINDOW; archcaraway_set_boundaries(&set) > 9; version++)
        judge(&set, version, 0, 1, true, verdicts);
    return set;
}

// The set is trimmed with each of its allocations refused in turn, and at last with none.
static void count_bytes(void) {
    uint8_t one[8], two[8];
    archcaraway_set set = swept(), other = swept();
    const long many = bytes_held / 2;
    const uint64_t most = reported(&set, many);
    archcaraway_stats stats;
    int status = ARCHCARAWAY_FRAME_MEMORY;
    size_t refused = 0;
    for (; status != ARCHCARAWAY_OK; refused++) {
        const long before = held;
        calls = 0;
        refuse_at = refused + 1;
        status = LIBRARY(archcaraway_set_trim(&set));
        DEMAND(status == ARCHCARAWAY_OK || status == ARCHCARAWAY_FRAME_MEMORY);
        DEMAND(are_same(&set, &other) && held <= before);
        DEMAND(status == ARCHCARAWAY_OK || archcaraway_set_bytes_held(&set) == most);
    }
    refuse_at = 0;
    const long few = bytes_held - many;
    const uint64_t fewest = reported(&set, few);
    // The filter of single keys keeps 3 MiB at most here.
    DEMAND(refused > 2 && many > 12L << 20 && few < (3L << 20) + 300000);
    DEMAND(most > 12 << 20 && fewest < (3 << 20) + 300000);
    DEMAND(archcaraway_set_stats(&other, &stats) == ARCHCARAWAY_OK);
    judge(&set, stats.version + 1, 0, 8, false, one);
    judge(&other, stats.version + 1, 0, 8, false, two);
    DEMAND(memcmp(one, two, 8) == 0 && one[0] == ARCHCARAWAY_COMMITTED);
    (void)LIBRARY((archcaraway_set_free(&set), archcaraway_set_free(&other), 0));
    DEMAND(held == 0 && bytes_held == 0);
    printf("%ld bytes of a set before, of which it reports %" PRIu64 "; %ld after, of which it "
           "reports %" PRIu64 "; %zu allocations refused\n",
           many, most, few, fewest, refused - 1);
}

// A set that has met its limit can be trimmed, and stays stopped.
static void keep_stop(void) {
    static const archcaraway_range a = {{(const uint8_t *)"a", 1}, {NULL, 0}, true};
    static const archcaraway_range c = {{(const uint8_t *)"c", 1}, {NULL, 0}, true};
    const archcaraway_txn first = {0, NULL, 0, &a, 1, false}, second = {0, NULL, 0, &c, 1, false};
    archcaraway_set set = ARCHCARAWAY_NONE, other = ARCHCARAWAY_NONE;
    uint8_t verdict;
    for (int i = 0; i < 2; i++) {
        archcaraway_set *made = i == 0 ? &set : &other;
        DEMAND(LIBRARY(archcaraway_set_new(WINDOW, 3, made)) == ARCHCARAWAY_OK);
        int status = LIBRARY(archcaraway_set_judge(made, 1, &first, 1, &verdict, NULL));
        DEMAND(status == ARCHCARAWAY_OK);
        status = LIBRARY(archcaraway_set_judge(made, 2, &second, 1, &verdict, NULL));
        DEMAND(status == ARCHCARAWAY_ARENA_FULL);
    }
    int trimmed = ARCHCARAWAY_FRAME_MEMORY;
    size_t refused = 0;
    for (; trimmed != ARCHCARAWAY_OK; refused++) {
        calls = 0;
        refuse_at = refused + 1;
        trimmed = LIBRARY(archcaraway_set_trim(&set));
        refuse_at = 0;
        DEMAND(trimmed == ARCHCARAWAY_OK || trimmed == ARCHCARAWAY_FRAME_MEMORY);
        DEMAND(are_same(&set, &other));
        const int status = LIBRARY(archcaraway_set_judge(&set, 300, &first, 1, &verdict, NULL));
        DEMAND(status == ARCHCARAWAY_ARENA_FULL);
    }
    DEMAND(refused > 1);
    (void)LIBRARY((archcaraway_set_free(&set), archcaraway_set_free(&other), 0));
    DEMAND(held == 0);
}

// One of two sets is trimmed before some of the batches. The replies are the same.
static void try_chain(Random *random, const Chain *chain) {
    static uint8_t one[ARCHCARAWAY_MAX_REPLY], two[ARCHCARAWAY_MAX_REPLY];
    archcaraway_set set = ARCHCARAWAY_NONE, other = ARCHCARAWAY_NONE;
    DEMAND(archcaraway_set_new(chain->window, chain->limit, &set) == ARCHCARAWAY_OK);
    DEMAND(archcaraway_set_new(chain->window, chain->limit, &other) == ARCHCARAWAY_OK);
    for (size_t i = 0; i < chain->length; i++) {
        Bytes frame = written_frame(&chain->chain[i]);
        size_t length, same;
        if (one_in(random, 2)) DEMAND(archcaraway_set_trim(&set) == ARCHCARAWAY_OK);
        const int status =
            archcaraway_set_resolve(&set, frame.bytes, frame.length, one, sizeof one, &length);
        DEMAND(archcaraway_set_resolve(&other, frame.bytes, frame.length, two, sizeof two, &same) ==
               status);
        DEMAND(length == same && memcmp(one, two, length) == 0 && are_same(&set, &other));
        free(frame.bytes);
    }
    DEMAND(archcaraway_set_trim(&set) == ARCHCARAWAY_OK && are_same(&set, &other));
    archcaraway_set_free(&set);
    archcaraway_set_free(&other);
}

int main(int count, char **words) {
    archcaraway_set none = ARCHCARAWAY_NONE;
    DEMAND(count == 3);
    size_t chains = (size_t)strtoul(words[1], NULL, 10);
    Random random = {strtoull(words[2], NULL, 10)};
    DEMAND(archcaraway_set_trim(NULL) == ARCHCARAWAY_ARGUMENT &&
           archcaraway_set_trim(&none) == ARCHCARAWAY_ARGUMENT);
    DEMAND(archcaraway_set_bytes_held(NULL) == 0 && archcaraway_set_bytes_held(&none) == 0);
    for (size_t number = 0; number < chains; number++) {
        Chain chain = random_chain(&random);
        if (chain.length < 100) try_chain(&random, &chain);
        free_chain(&chain);
    }
    keep_stop();
    count_bytes();
    return 0;
}
