// Sets that refuse the batches that don't fit their limit, over random chains.
//
//     full CHAINS SEED
//
// One set is given each batch as a frame, one as a batch without a frame, and both refuse what
// doesn't fit. Whenever a batch is refused, and at the end of a chain, another set resolves those
// that were not refused: it must give the same replies and have the same numbers, and it must stop
// at the refused batch.
#include <stdlib.h>

#include "chains.h"
#include "values.h"

typedef struct {
    const Batch *batch;
    Bytes reply;
} Accepted;

typedef struct {
    Accepted *items;
    size_t length;
} History;

static size_t refused_seen, accepted_after_refusals;

static archcaraway_stats stats_of(const archcaraway_set *set) {
    archcaraway_stats stats;
    DEMAND(archcaraway_set_stats(set, &stats) == ARCHCARAWAY_OK);
    return stats;
}

static bool are_same(archcaraway_stats a, archcaraway_stats b) {
    return a.boundaries == b.boundaries && a.limit == b.limit && a.version == b.version &&
           a.edge == b.edge;
}

// A set that has resolved what was accepted.
static archcaraway_set set_behind(const Chain *chain, const History *history) {
    static uint8_t reply[ARCHCARAWAY_MAX_REPLY];
    archcaraway_set set = ARCHCARAWAY_NONE;
    size_t length;
    DEMAND(archcaraway_set_new(chain->window, chain->limit, &set) == ARCHCARAWAY_OK);
    for (size_t i = 0; i < history->length; i++) {
        const Accepted *accepted = &history->items[i];
        Bytes frame = written_frame(accepted->batch);
        DEMAND(archcaraway_set_resolve(&set, frame.bytes, frame.length, reply, sizeof reply,
                                       &length) == ARCHCARAWAY_OK);
        DEMAND(length == accepted->reply.length &&
               memcmp(reply, accepted->reply.bytes, length) == 0);
        free(frame.bytes);
    }
    return set;
}

// Judges the same batch without a frame.
static int by_values(archcaraway_set *set, const Batch *batch, uint8_t *verdicts, bool as_batch) {
    archcaraway_batch made = ARCHCARAWAY_NONE;
    Values values = values_of(batch);
    DEMAND(archcaraway_batch_new(&made) == ARCHCARAWAY_OK);
    for (unsigned i = 0; i < batch->count; i++)
        DEMAND(archcaraway_batch_add(&made, &values.txns[i]) == ARCHCARAWAY_OK);
    const int status = as_batch ? archcaraway_set_try_judge_batch(set, batch->version, &made,
                                                                  verdicts, batch->count)
                                : archcaraway_set_try_judge(set, batch->version, values.txns,
                                                            batch->count, verdicts, NULL);
    archcaraway_batch_free(&made);
    free_values(&values);
    return status;
}

static void demand_verdicts(Bytes frame, const uint8_t *verdicts, unsigned count) {
    archcaraway_reply reply;
    archcaraway_entry entry;
    DEMAND(archcaraway_reply_read(&reply, frame.bytes, frame.length) == ARCHCARAWAY_OK &&
           reply.count == count);
    for (unsigned i = 0; i < count; i++)
        DEMAND(archcaraway_reply_next(&reply, &entry) && entry.verdict == verdicts[i]);
}

static void try_chain(Random *random, const Chain *chain) {
    static uint8_t reply[ARCHCARAWAY_MAX_REPLY];
    archcaraway_set framed = ARCHCARAWAY_NONE, valued = ARCHCARAWAY_NONE;
    History history = {demand_memory((chain->length + 1) * sizeof *history.items), 0};
    bool has_refused = false;
    DEMAND(archcaraway_set_new(chain->window, chain->limit, &framed) == ARCHCARAWAY_OK);
    DEMAND(archcaraway_set_new(chain->window, chain->limit, &valued) == ARCHCARAWAY_OK);
    for (size_t i = 0; i < chain->length; i++) {
        const Batch *batch = &chain->chain[i];
        const archcaraway_stats before = stats_of(&framed);
        uint8_t verdicts[64];
        size_t length;
        Bytes frame = written_frame(batch);
        const int status = archcaraway_set_try_resolve(&framed, frame.bytes, frame.length, reply,
                                                       sizeof reply, &length);
        DEMAND(by_values(&valued, batch, verdicts, one_in(random, 2)) == status);
        DEMAND(are_same(stats_of(&valued), stats_of(&framed)));
        if (status == ARCHCARAWAY_OK) {
            Accepted accepted = {batch, copy_bytes(reply, length)};
            demand_verdicts(accepted.reply, verdicts, batch->count);
            history.items[history.length++] = accepted;
            accepted_after_refusals += has_refused;
        } else {
            DEMAND(status == ARCHCARAWAY_ARENA_FULL && length == 0 &&
                   are_same(before, stats_of(&framed)));
            if (!has_refused || one_in(random, 8)) {
                archcaraway_set stops = set_behind(chain, &history);
                DEMAND(are_same(before, stats_of(&stops)));
                DEMAND(archcaraway_set_resolve(&stops, frame.bytes, frame.length, reply,
                                               sizeof reply, &length) == ARCHCARAWAY_ARENA_FULL);
                DEMAND(archcaraway_set_try_resolve(&stops, frame.bytes, frame.length, reply,
                                                   sizeof reply,
                                                   &length) == ARCHCARAWAY_ARENA_FULL);
                archcaraway_set_free(&stops);
            }
            has_refused = true;
            refused_seen++;
        }
        free(frame.bytes);
    }
    archcaraway_set again = set_behind(chain, &history);
    DEMAND(are_same(stats_of(&again), stats_of(&framed)));
    archcaraway_set_free(&again);
    for (size_t i = 0; i < history.length; i++) free(history.items[i].reply.bytes);
    free(history.items);
    archcaraway_set_free(&framed);
    archcaraway_set_free(&valued);
}

static void arguments(void) {
    static const uint8_t bytes[4];
    archcaraway_set none = ARCHCARAWAY_NONE, set = ARCHCARAWAY_NONE;
    archcaraway_batch batch = ARCHCARAWAY_NONE;
    uint8_t reply[64];
    size_t length = 99;
    DEMAND(archcaraway_set_new(10, 10, &set) == ARCHCARAWAY_OK);
    DEMAND(archcaraway_set_try_resolve(NULL, bytes, 4, reply, 64, &length) ==
               ARCHCARAWAY_ARGUMENT &&
           length == 0);
    DEMAND(archcaraway_set_try_resolve(&none, bytes, 4, reply, 64, &length) ==
           ARCHCARAWAY_ARGUMENT);
    DEMAND(archcaraway_set_try_resolve(&set, NULL, 4, reply, 64, &length) == ARCHCARAWAY_ARGUMENT);
    DEMAND(archcaraway_set_try_resolve(&set, bytes, 4, NULL, 64, &length) == ARCHCARAWAY_ARGUMENT);
    DEMAND(archcaraway_set_try_resolve(&set, bytes, 4, reply, 64, NULL) == ARCHCARAWAY_ARGUMENT);
    DEMAND(archcaraway_set_try_resolve(&set, NULL, 0, reply, 64, &length) ==
           ARCHCARAWAY_FRAME_SHORT);
    DEMAND(archcaraway_set_try_judge(&none, 1, NULL, 0, reply, NULL) == ARCHCARAWAY_ARGUMENT);
    DEMAND(archcaraway_set_try_judge(&set, -1, NULL, 0, NULL, NULL) == ARCHCARAWAY_VERSION_LATE);
    DEMAND(archcaraway_set_try_judge_batch(&set, 1, &batch, reply, 64) == ARCHCARAWAY_ARGUMENT);
    DEMAND(archcaraway_set_try_judge(&set, 1, NULL, 0, NULL, NULL) == ARCHCARAWAY_OK);
    archcaraway_set_free(&set);
}

int main(int count, char **words) {
    DEMAND(count == 3);
    size_t chains = (size_t)strtoul(words[1], NULL, 10);
    Random random = {strtoull(words[2], NULL, 10)};
    arguments();
    for (size_t number = 0; number < chains; number++) {
        Chain chain = random_chain(&random);
        chain.limit = 1 + below(&random, 40);
        if (chain.length < 100) try_chain(&random, &chain);
        free_chain(&chain);
    }
    DEMAND(chains < 100 || (refused_seen > chains && accepted_after_refusals > chains));
    printf("%zu chains, %zu batches refused, %zu accepted after a refusal\n", chains, refused_seen,
           accepted_after_refusals);
    return 0;
}
