// Sets and cores that start at a version: what they know of the history before it, and what they
// report about themselves.
#include <stdlib.h>

#include "chains.h"

static const int64_t START = INT64_C(1000000000);

typedef struct {
    int64_t snapshot;
    const char *begin, *end; // without an end, a single key
} Read;

// The frame of a batch with a transaction for each read.
static Bytes batch(int64_t previous, int64_t version, const Read *reads, size_t count) {
    archcaraway_writer writer = archcaraway_writer_new(archcaraway_grow_malloc, NULL);
    DEMAND(archcaraway_batch_begin(&writer, previous, version, -1) == ARCHCARAWAY_OK);
    for (size_t i = 0; i < count; i++) {
        const Read *read = &reads[i];
        const uint8_t *begin = (const uint8_t *)read->begin;
        archcaraway_batch_transaction(&writer, read->snapshot, false);
        if (read->end == NULL) archcaraway_batch_read_key(&writer, begin, strlen(read->begin));
        else
            archcaraway_batch_read(&writer, begin, strlen(read->begin), (const uint8_t *)read->end,
                                   strlen(read->end));
    }
    DEMAND(archcaraway_batch_end(&writer) == ARCHCARAWAY_OK);
    Bytes frame = copy_bytes(writer.bytes, writer.length);
    archcaraway_writer_free(&writer);
    return frame;
}

static void demand_verdicts(const uint8_t *bytes, size_t length, const int *verdicts,
                            size_t count) {
    archcaraway_reply reply;
    archcaraway_entry entry;
    DEMAND(archcaraway_reply_read(&reply, bytes, length) == ARCHCARAWAY_OK && reply.count == count);
    for (size_t i = 0; i < count; i++) {
        DEMAND(archcaraway_reply_next(&reply, &entry) && entry.verdict == verdicts[i]);
    }
}

static void numbers(void) {
    static const struct {
        int64_t window;
        uint64_t limit;
        int64_t version;
        int status;
    } rows[] = {
        {1, 1, -1, ARCHCARAWAY_OK},
        {1, 3, 0, ARCHCARAWAY_OK},
        {ARCHCARAWAY_MAX_WINDOW, ARCHCARAWAY_MAX_LIMIT, INT64_MAX, ARCHCARAWAY_OK},
        {1, 2, 0, ARCHCARAWAY_ARENA_FULL},
        {1, 1, INT64_MAX, ARCHCARAWAY_ARENA_FULL},
        {1, 3, -2, ARCHCARAWAY_ARGUMENT},
        {1, 2, INT64_MIN, ARCHCARAWAY_ARGUMENT},
        {0, 2, 0, ARCHCARAWAY_ARGUMENT},
        {1, 0, 0, ARCHCARAWAY_ARGUMENT},
        {1, ARCHCARAWAY_MAX_LIMIT + 1, 0, ARCHCARAWAY_ARGUMENT},
    };
    for (size_t i = 0; i < sizeof rows / sizeof rows[0]; i++) {
        int other;
        archcaraway_set set = {&other};
        archcaraway_core core = {&other};
        DEMAND(archcaraway_set_new_at(rows[i].window, rows[i].limit, rows[i].version, &set) ==
               rows[i].status);
        DEMAND(archcaraway_core_new_at(1, rows[i].window, rows[i].limit, rows[i].version, &core) ==
               rows[i].status);
        DEMAND((set.at != NULL) == (rows[i].status == ARCHCARAWAY_OK));
        DEMAND((core.at != NULL) == (rows[i].status == ARCHCARAWAY_OK));
        archcaraway_set_free(&set);
        archcaraway_core_free(&core);
    }
    archcaraway_core core = ARCHCARAWAY_NONE;
    DEMAND(archcaraway_core_new_at(0, 1, 3, 0, &core) == ARCHCARAWAY_ARGUMENT);
    DEMAND(archcaraway_core_new_at(65, 1, 3, 0, &core) == ARCHCARAWAY_ARGUMENT);
    DEMAND(archcaraway_set_new_at(1, 3, 0, NULL) == ARCHCARAWAY_ARGUMENT);
    DEMAND(archcaraway_core_new_at(1, 1, 3, 0, NULL) == ARCHCARAWAY_ARGUMENT);
}

static void sets(void) {
    static const Read reads[] = {
        {900, "k", NULL}, {1000, "k", NULL}, {999, "", "\xff"}, {900, "k", "k"}, {1001, "", "\xff"},
    };
    static const int verdicts[] = {ARCHCARAWAY_CONFLICT, ARCHCARAWAY_COMMITTED,
                                   ARCHCARAWAY_CONFLICT, ARCHCARAWAY_COMMITTED,
                                   ARCHCARAWAY_COMMITTED};
    archcaraway_set set = ARCHCARAWAY_NONE;
    archcaraway_stats stats;
    uint8_t reply[64];
    size_t length;
    DEMAND(archcaraway_set_new_at(100, 10, 1000, &set) == ARCHCARAWAY_OK);
    DEMAND(archcaraway_set_stats(&set, &stats) == ARCHCARAWAY_OK);
    DEMAND(stats.boundaries == 2 && stats.limit == 10);
    DEMAND(stats.version == 1000 && stats.edge == 900);
    DEMAND(stats.held == 0 && stats.owed == 0);
    Bytes early = batch(-1, 1000, NULL, 0), frame = batch(-1, 1001, reads + 1, 4);
    DEMAND(archcaraway_set_resolve(&set, early.bytes, early.length, reply, 64, &length) ==
           ARCHCARAWAY_VERSION_LATE);
    DEMAND(archcaraway_set_resolve(&set, frame.bytes, frame.length, reply, 64, &length) ==
           ARCHCARAWAY_OK);
    const int late[] = {ARCHCARAWAY_COMMITTED, ARCHCARAWAY_CONFLICT, ARCHCARAWAY_TOO_OLD,
                        ARCHCARAWAY_COMMITTED};
    demand_verdicts(reply, length, late, 4);
    DEMAND(archcaraway_set_stats(&set, &stats) == ARCHCARAWAY_OK);
    DEMAND(stats.version == 1001 && stats.edge == 901);
    archcaraway_set_free(&set);
    DEMAND(archcaraway_set_new_at(ARCHCARAWAY_WINDOW, 10, 1000, &set) == ARCHCARAWAY_OK);
    free(frame.bytes);
    frame = batch(-1, 1001, reads, 5);
    DEMAND(archcaraway_set_resolve(&set, frame.bytes, frame.length, reply, 64, &length) ==
           ARCHCARAWAY_OK);
    demand_verdicts(reply, length, verdicts, 5);
    archcaraway_set_free(&set);
    DEMAND(archcaraway_set_stats(&set, &stats) == ARCHCARAWAY_ARGUMENT);
    DEMAND(archcaraway_set_stats(NULL, &stats) == ARCHCARAWAY_ARGUMENT);
    free(frame.bytes);
    free(early.bytes);
}

static void cores(void) {
    static const struct {
        uint32_t proxy;
        int64_t previous, version;
    } sent[] = {{2, -1, 0}, {0, -1, 5}, {1, 1, 2}, {2, 0, 1}, {1, 9, 10}};
    static const struct {
        uint32_t proxy;
        int kind;
        int64_t version;
    } owed[] = {{0, ARCHCARAWAY_NEVER, 5},
                {1, ARCHCARAWAY_REPLY, 2},
                {2, ARCHCARAWAY_NEVER, 0},
                {2, ARCHCARAWAY_REPLY, 1}};
    archcaraway_core core = ARCHCARAWAY_NONE;
    archcaraway_stats stats;
    uint8_t answer[64];
    uint32_t proxy = 99;
    DEMAND(archcaraway_core_new_at(3, ARCHCARAWAY_WINDOW, 10, START, &core) == ARCHCARAWAY_OK);
    DEMAND(archcaraway_core_next(&core, &proxy) == 0 && proxy == 99);
    for (size_t i = 0; i < sizeof sent / sizeof sent[0]; i++) {
        Bytes frame = batch(START + sent[i].previous, START + sent[i].version, NULL, 0);
        DEMAND(archcaraway_core_admit(&core, sent[i].proxy, frame.bytes, frame.length) ==
               ARCHCARAWAY_OK);
        free(frame.bytes);
    }
    DEMAND(archcaraway_core_stats(&core, &stats) == ARCHCARAWAY_OK);
    DEMAND(stats.boundaries == 2 && stats.limit == 10 && stats.version == START + 2);
    DEMAND(stats.edge == START + 2 - ARCHCARAWAY_WINDOW && stats.held == 1 && stats.owed == 4);
    // A core's bytes are those of its set.
    archcaraway_set set = ARCHCARAWAY_NONE;
    DEMAND(archcaraway_set_new_at(ARCHCARAWAY_WINDOW, 10, START, &set) == ARCHCARAWAY_OK);
    const uint64_t bytes = archcaraway_set_bytes_held(&set);
    DEMAND(bytes > 0 && archcaraway_core_bytes_held(&core) == bytes);
    archcaraway_set_free(&set);
    for (size_t i = 0; i < sizeof owed / sizeof owed[0]; i++) {
        size_t length;
        int kind;
        int64_t version;
        DEMAND(archcaraway_core_next(&core, &proxy) == 1 && proxy == owed[i].proxy);
        // A buffer that is too small leaves the answer owed.
        if (owed[i].kind == ARCHCARAWAY_REPLY) {
            DEMAND(archcaraway_core_give(&core, proxy, NULL, 0, &length, &kind, &version) ==
                   ARCHCARAWAY_BUFFER);
            DEMAND(archcaraway_core_next(&core, &proxy) == 1 && proxy == owed[i].proxy);
        }
        DEMAND(archcaraway_core_give(&core, proxy, answer, 64, &length, &kind, &version) ==
               ARCHCARAWAY_OK);
        DEMAND(kind == owed[i].kind && version == START + owed[i].version);
    }
    proxy = 99;
    DEMAND(archcaraway_core_next(&core, &proxy) == 0 && proxy == 99);
    DEMAND(archcaraway_core_next(&core, NULL) == 0 && archcaraway_core_next(NULL, &proxy) == 0);
    DEMAND(archcaraway_core_stats(&core, NULL) == ARCHCARAWAY_ARGUMENT);
    archcaraway_core_free(&core);
    DEMAND(archcaraway_core_next(&core, &proxy) == 0);
    DEMAND(archcaraway_core_stats(&core, &stats) == ARCHCARAWAY_ARGUMENT);
    DEMAND(archcaraway_core_bytes_held(&core) == 0 && archcaraway_core_bytes_held(NULL) == 0);
}

int main(void) {
    numbers();
    sets();
    cores();
    puts("start: sets and cores that start at a version are as the header says");
}
