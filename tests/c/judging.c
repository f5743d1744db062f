// Batches without frames beside batches by frames, over random chains, and what is refused.
//
//     judging CHAINS SEED
//
// Four sets judge each chain: by frames, by archcaraway_set_judge, by one batch that is used again
// and again, and by one to which transactions of two others are appended. Two cores answer it, by
// frames and by batches. All must agree.
#include <stdlib.h>

#include "values.h"

// Judges by the frame, and returns the status.
static int by_frame(archcaraway_set *set, const Batch *batch, uint8_t *verdicts) {
    static uint8_t buffer[ARCHCARAWAY_MAX_REPLY];
    Bytes frame = written_frame(batch);
    size_t length, i = 0;
    int status =
        archcaraway_set_resolve(set, frame.bytes, frame.length, buffer, sizeof buffer, &length);
    if (status == ARCHCARAWAY_OK) {
        archcaraway_reply reply;
        archcaraway_entry entry;
        DEMAND(archcaraway_reply_read(&reply, buffer, length) == ARCHCARAWAY_OK);
        while (archcaraway_reply_next(&reply, &entry)) verdicts[i++] = (uint8_t)entry.verdict;
    }
    free(frame.bytes);
    return status;
}

// Tries to add a transaction that is bad, and demands that nothing comes of it.
static void add_a_bad_one(Random *random, archcaraway_batch *batch) {
    static const uint8_t key[ARCHCARAWAY_MAX_KEY + 1];
    archcaraway_range range = {{key, 3}, {key, 4}, false};
    archcaraway_txn txn = {0, &range, 1, &range, 1, false};
    size_t room = archcaraway_batch_room(batch);
    int status = ARCHCARAWAY_ARGUMENT;
    switch (below(random, 6)) {
    case 0: txn.snapshot = -1, status = ARCHCARAWAY_FRAME_VERSION; break;
    case 1: range.end.length = 2, status = ARCHCARAWAY_FRAME_INVERTED; break;
    case 2:
        range.end.length = ARCHCARAWAY_MAX_KEY + 1, status = ARCHCARAWAY_FRAME_KEY_LENGTH;
        break;
    case 3:
        range.begin.length = ARCHCARAWAY_MAX_KEY, range.single = true,
        status = ARCHCARAWAY_FRAME_KEY_LENGTH;
        break;
    case 4: range.begin.bytes = NULL; break;
    default: txn.write_count = ARCHCARAWAY_MAX_RANGES + 1, status = ARCHCARAWAY_FRAME_COUNT; break;
    }
    DEMAND(archcaraway_batch_add(batch, &txn) == status);
    DEMAND(archcaraway_batch_room(batch) == room);
}

// Fills a batch that has been used before, with bad transactions and dropped ones in between.
static void fill(Random *random, archcaraway_batch *batch, const Values *values, unsigned from,
                 unsigned to) {
    archcaraway_batch_clear(batch);
    DEMAND(archcaraway_batch_room(batch) == ARCHCARAWAY_MAX_TRANSACTIONS);
    for (unsigned i = from; i < to; i++) {
        if (one_in(random, 8)) add_a_bad_one(random, batch);
        if (one_in(random, 8)) {
            DEMAND(archcaraway_batch_add(batch, &values->txns[from + below(random, to - from)]) ==
                   ARCHCARAWAY_OK);
            archcaraway_batch_drop_last(batch);
        }
        DEMAND(archcaraway_batch_add(batch, &values->txns[i]) == ARCHCARAWAY_OK);
    }
    DEMAND(archcaraway_batch_room(batch) == ARCHCARAWAY_MAX_TRANSACTIONS - (to - from));
}

static size_t verdicts_seen[3], stops_seen;

static void judge_chain(Random *random, const Chain *chain) {
    archcaraway_set sets[4] = {ARCHCARAWAY_NONE, ARCHCARAWAY_NONE, ARCHCARAWAY_NONE,
                               ARCHCARAWAY_NONE};
    archcaraway_batch batches[4] = {ARCHCARAWAY_NONE, ARCHCARAWAY_NONE, ARCHCARAWAY_NONE,
                                    ARCHCARAWAY_NONE};
    for (size_t i = 0; i < 4; i++) {
        DEMAND(archcaraway_set_new(chain->window, chain->limit, &sets[i]) == ARCHCARAWAY_OK);
        DEMAND(archcaraway_batch_new(&batches[i]) == ARCHCARAWAY_OK);
    }
    int stop = ARCHCARAWAY_OK;
    for (size_t i = 0; i < chain->length; i++) {
        const Batch *batch = &chain->chain[i];
        const unsigned count = batch->count, middle = (unsigned)below(random, count + 1);
        uint8_t verdicts[4][8];
        size_t bad = 99;
        int status[4];
        Values values = values_of(batch);
        DEMAND(count <= sizeof verdicts[0]);
        memset(verdicts, 9, sizeof verdicts);
        status[0] = by_frame(&sets[0], batch, verdicts[0]);
        status[1] =
            archcaraway_set_judge(&sets[1], batch->version, values.txns, count, verdicts[1], &bad);
        DEMAND(bad == count);
        fill(random, &batches[0], &values, 0, count);
        if (count > 0) {
            int few = archcaraway_set_judge_batch(&sets[2], batch->version, &batches[0],
                                                  verdicts[2], count - 1);
            DEMAND(few == (stop != ARCHCARAWAY_OK ? stop : ARCHCARAWAY_BUFFER));
        }
        status[2] = archcaraway_set_judge_batch(&sets[2], batch->version, &batches[0], verdicts[2],
                                                sizeof verdicts[2]);
        fill(random, &batches[1], &values, 0, middle);
        fill(random, &batches[2], &values, middle, count);
        archcaraway_batch_clear(&batches[3]);
        DEMAND(archcaraway_batch_append(&batches[3], &batches[1]) == ARCHCARAWAY_OK);
        DEMAND(archcaraway_batch_append(&batches[3], &batches[2]) == ARCHCARAWAY_OK);
        status[3] =
            archcaraway_set_judge_batch(&sets[3], batch->version, &batches[3], verdicts[3], count);
        for (size_t k = 1; k < 4; k++) {
            DEMAND(status[k] == status[0]);
            DEMAND(memcmp(verdicts[k], verdicts[0], sizeof verdicts[0]) == 0);
            DEMAND(archcaraway_set_boundaries(&sets[k]) == archcaraway_set_boundaries(&sets[0]));
        }
        for (unsigned t = 0; t < count && status[0] == ARCHCARAWAY_OK; t++)
            verdicts_seen[verdicts[0][t]]++;
        stop = status[0];
        stops_seen += stop != ARCHCARAWAY_OK;
        free_values(&values);
    }
    for (size_t i = 0; i < 4; i++) {
        archcaraway_set_free(&sets[i]);
        archcaraway_batch_free(&batches[i]);
    }
}

// What a core gives, one answer after the other, proxy by proxy.
static Answers all_answers(archcaraway_core *core, unsigned proxies) {
    static uint8_t buffer[ARCHCARAWAY_MAX_REPLY];
    Answers answers = {NULL, 0, 0};
    for (unsigned proxy = 0; proxy < proxies; proxy++) {
        for (;;) {
            Answer answer = {proxy, 0, 0, {NULL, 0}};
            size_t length;
            DEMAND(archcaraway_core_give(core, proxy, buffer, sizeof buffer, &length, &answer.kind,
                                         &answer.version) == 0);
            if (answer.kind == ARCHCARAWAY_NOTHING) break;
            answer.frame = copy_bytes(buffer, length);
            keep_answer(&answers, answer);
        }
    }
    return answers;
}

// Gives a chain to two cores, with batches that come too early and repeats.
static void admit_chain(Random *random, const Chain *chain) {
    const unsigned proxies = 1 + (unsigned)below(random, 3);
    archcaraway_core framed = ARCHCARAWAY_NONE, valued = ARCHCARAWAY_NONE;
    archcaraway_batch values_held = ARCHCARAWAY_NONE;
    DEMAND(archcaraway_core_new(proxies, chain->window, chain->limit, &framed) == ARCHCARAWAY_OK);
    DEMAND(archcaraway_core_new(proxies, chain->window, chain->limit, &valued) == ARCHCARAWAY_OK);
    DEMAND(archcaraway_batch_new(&values_held) == ARCHCARAWAY_OK);
    for (size_t i = 0; i < chain->length; i++) {
        const size_t at = one_in(random, 5) ? below(random, chain->length) : i;
        const Batch *batch = &chain->chain[at];
        const uint32_t proxy = (uint32_t)(at % proxies);
        Values values = values_of(batch);
        Bytes frame = written_frame(batch);
        int status = archcaraway_core_admit(&framed, proxy, frame.bytes, frame.length);
        fill(random, &values_held, &values, 0, batch->count);
        DEMAND(archcaraway_core_admit_batch(&valued, proxy, &values_held, batch->previous,
                                            batch->version, batch->received) == status);
        free(frame.bytes);
        free_values(&values);
    }
    DEMAND(archcaraway_core_finish(&framed) == archcaraway_core_finish(&valued));
    Answers one = all_answers(&framed, proxies), two = all_answers(&valued, proxies);
    DEMAND(one.length == two.length);
    for (size_t i = 0; i < one.length; i++) {
        const Answer *a = &one.items[i], *b = &two.items[i];
        DEMAND(a->proxy == b->proxy && a->kind == b->kind && a->version == b->version);
        DEMAND(a->frame.length == b->frame.length &&
               memcmp(a->frame.bytes, b->frame.bytes, a->frame.length) == 0);
    }
    free_answers(&one);
    free_answers(&two);
    archcaraway_batch_free(&values_held);
    archcaraway_core_free(&framed);
    archcaraway_core_free(&valued);
}

static void refusals(void) {
    static const uint8_t key[3];
    archcaraway_set set = ARCHCARAWAY_NONE;
    archcaraway_core core = ARCHCARAWAY_NONE;
    archcaraway_batch batch = ARCHCARAWAY_NONE, none = ARCHCARAWAY_NONE, other = ARCHCARAWAY_NONE;
    archcaraway_range range = {{key, 1}, {NULL, 0}, true}, inverted = {{key, 1}, {NULL, 0}, false};
    archcaraway_txn txns[3] = {{0, &range, 1, NULL, 0, false},
                               {0, NULL, 0, &range, 1, false},
                               {0, NULL, 0, NULL, 0, false}};
    uint8_t verdicts[3] = {9, 9, 9};
    size_t bad = 99;
    DEMAND(archcaraway_set_new(10, 10, &set) == ARCHCARAWAY_OK &&
           archcaraway_core_new(2, 10, 10, &core) == ARCHCARAWAY_OK);
    DEMAND(archcaraway_batch_new(&batch) == ARCHCARAWAY_OK &&
           archcaraway_batch_new(&other) == ARCHCARAWAY_OK);
    DEMAND(archcaraway_batch_new(NULL) == ARCHCARAWAY_ARGUMENT);
    DEMAND(archcaraway_set_judge(NULL, 1, txns, 3, verdicts, &bad) == ARCHCARAWAY_ARGUMENT);
    DEMAND(archcaraway_set_judge(&set, 1, NULL, 3, verdicts, &bad) == ARCHCARAWAY_ARGUMENT);
    DEMAND(archcaraway_set_judge(&set, 1, txns, 3, NULL, &bad) == ARCHCARAWAY_ARGUMENT);
    DEMAND(archcaraway_set_judge(&set, -1, txns, 3, verdicts, &bad) == ARCHCARAWAY_VERSION_LATE &&
           bad == 3);
    txns[1].writes = &inverted;
    DEMAND(archcaraway_set_judge(&set, 1, txns, 3, verdicts, &bad) == ARCHCARAWAY_FRAME_INVERTED &&
           bad == 1);
    txns[1].writes = NULL;
    DEMAND(archcaraway_set_judge(&set, 1, txns, 3, verdicts, &bad) == ARCHCARAWAY_ARGUMENT &&
           bad == 1);
    txns[1].writes = &range;
    DEMAND(verdicts[0] == 9 &&
           archcaraway_set_judge(&set, 1, NULL, 0, NULL, NULL) == ARCHCARAWAY_OK);
    DEMAND(archcaraway_set_judge(&set, 2, txns, 3, verdicts, NULL) == ARCHCARAWAY_OK &&
           verdicts[2] == ARCHCARAWAY_COMMITTED);
    DEMAND(archcaraway_set_judge(&set, 3, txns, 3, verdicts, NULL) == ARCHCARAWAY_OK &&
           verdicts[0] == ARCHCARAWAY_CONFLICT);
    DEMAND(archcaraway_batch_add(&none, txns) == ARCHCARAWAY_ARGUMENT &&
           archcaraway_batch_add(&batch, NULL) == ARCHCARAWAY_ARGUMENT);
    for (size_t i = 0; i < ARCHCARAWAY_MAX_TRANSACTIONS; i++)
        DEMAND(archcaraway_batch_add(&batch, &txns[i % 3]) == ARCHCARAWAY_OK);
    DEMAND(archcaraway_batch_room(&batch) == 0 &&
           archcaraway_batch_add(&batch, txns) == ARCHCARAWAY_FRAME_COUNT);
    DEMAND(archcaraway_batch_append(&batch, &other) == ARCHCARAWAY_OK &&
           archcaraway_batch_add(&other, txns) == ARCHCARAWAY_OK);
    DEMAND(archcaraway_batch_append(&batch, &other) == ARCHCARAWAY_FRAME_COUNT &&
           archcaraway_batch_room(&batch) == 0);
    DEMAND(archcaraway_batch_append(&batch, &batch) == ARCHCARAWAY_ARGUMENT);
    DEMAND(archcaraway_batch_append(&batch, &none) == ARCHCARAWAY_ARGUMENT &&
           archcaraway_batch_room(&none) == 0);
    DEMAND(archcaraway_set_judge_batch(&set, 3, &other, verdicts, 3) == ARCHCARAWAY_VERSION_LATE);
    DEMAND(archcaraway_set_judge_batch(&set, 4, &other, NULL, 0) == ARCHCARAWAY_BUFFER);
    DEMAND(archcaraway_set_judge_batch(&set, 4, &none, verdicts, 3) == ARCHCARAWAY_ARGUMENT);
    DEMAND(archcaraway_core_admit_batch(&core, 2, &other, -1, 0, -1) == ARCHCARAWAY_ARGUMENT);
    DEMAND(archcaraway_core_admit_batch(&core, 0, &other, 0, 0, -1) == ARCHCARAWAY_ARGUMENT);
    DEMAND(archcaraway_core_admit_batch(&core, 0, &other, -1, 0, 0) == ARCHCARAWAY_ARGUMENT);
    DEMAND(archcaraway_core_admit_batch(&core, 0, &other, -1, 0, -1) == ARCHCARAWAY_OK &&
           archcaraway_core_owed(&core) == 1);
    archcaraway_batch_drop_last(&other);
    archcaraway_batch_drop_last(&other);
    archcaraway_batch_drop_last(NULL);
    archcaraway_batch_clear(NULL);
    DEMAND(archcaraway_batch_room(&other) == ARCHCARAWAY_MAX_TRANSACTIONS);
    archcaraway_batch_free(&batch);
    archcaraway_batch_free(&batch);
    archcaraway_batch_free(&other);
    archcaraway_set_free(&set);
    archcaraway_core_free(&core);
}

int main(int count, char **words) {
    DEMAND(count == 3);
    Random random = {strtoull(words[2], NULL, 10)};
    refusals();
    for (size_t chains = strtoull(words[1], NULL, 10); chains > 0; chains--) {
        Chain chain = random_chain(&random);
        judge_chain(&random, &chain);
        admit_chain(&random, &chain);
        free_chain(&chain);
    }
    printf("judging: %zu committed, %zu conflicts, %zu too old, %zu stops, the same by frames and "
           "by values\n",
           verdicts_seen[ARCHCARAWAY_COMMITTED], verdicts_seen[ARCHCARAWAY_CONFLICT],
           verdicts_seen[ARCHCARAWAY_TOO_OLD], stops_seen);
    return 0;
}
