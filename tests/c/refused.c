// Refuses each allocation of the library in turn, and looks at what it says then.
//
//     refused CHAINS SEED
//
// Linked with --wrap for malloc, realloc and free. A refused call answers a named status: a stop,
// after which what was answered is a beginning of all answers, or that memory was refused while a
// frame was read or written, after which the call is made again and nothing is lost. Nothing leaks.
#include <stdlib.h>

#include "archcaraway_shards.h"
#include "refusing.h"
#include "values.h"

static size_t stops, again;

// Whether the call is to be made again.
static bool is_again(int status) {
    again += status == ARCHCARAWAY_FRAME_MEMORY;
    return status == ARCHCARAWAY_FRAME_MEMORY;
}

static bool take_answer(archcaraway_core *core, unsigned proxy, Answers *answers) {
    static uint8_t bytes[100000];
    size_t length;
    Answer answer = {proxy, 0, 0, {NULL, 0}};
    int status;
    while (is_again(status = LIBRARY(archcaraway_core_give(
                        core, proxy, bytes, sizeof bytes, &length, &answer.kind,
                        &answer.version)))) {
        DEMAND(length == 0 && answer.kind == ARCHCARAWAY_NOTHING);
    }
    DEMAND(status == ARCHCARAWAY_OK);
    if (answer.kind == ARCHCARAWAY_NOTHING) return false;
    answer.frame = copy_bytes(bytes, length);
    keep_answer(answers, answer);
    return true;
}

// Runs the chain over a core with allocation number `refuse_at` refused, and answers the stop.
static int run_core(const Chain *chain, Answers *answers) {
    archcaraway_core core = ARCHCARAWAY_NONE;
    int status, stop;
    calls = 0;
    status = LIBRARY(archcaraway_core_new(chain->proxies, chain->window, chain->limit, &core));
    if (status != ARCHCARAWAY_OK) {
        DEMAND(status == ARCHCARAWAY_MEMORY && core.at == NULL && held == 0);
        return status;
    }
    for (size_t i = 0; i < chain->sent_length && status == ARCHCARAWAY_OK; i++) {
        const Sent *sent = &chain->sent[i];
        while (is_again(status = LIBRARY(archcaraway_core_admit(
                            &core, sent->proxy, sent->frame.bytes, sent->frame.length)))) {
        }
    }
    if (status == ARCHCARAWAY_OK) status = LIBRARY(archcaraway_core_finish(&core));
    DEMAND(status >= ARCHCARAWAY_OK && status <= ARCHCARAWAY_ARENA_FULL);
    stop = archcaraway_core_stop(&core);
    DEMAND(stop == status);
    for (unsigned proxy = 0; proxy < chain->proxies; proxy++) {
        while (take_answer(&core, proxy, answers)) {
        }
    }
    enter();
    archcaraway_core_free(&core);
    leave(0);
    DEMAND(held == 0);
    return stop;
}

static bool is_same(const Answer *a, const Answer *b) {
    return a->proxy == b->proxy && a->kind == b->kind && a->version == b->version &&
           a->frame.length == b->frame.length &&
           (a->frame.length == 0 || memcmp(a->frame.bytes, b->frame.bytes, a->frame.length) == 0);
}

// Whether those of each proxy are a beginning of all that it is given.
static bool are_beginnings(const Answers *some, const Answers *all, unsigned proxies) {
    size_t looked = 0;
    for (unsigned proxy = 0; proxy < proxies; proxy++) {
        size_t at = 0;
        for (size_t i = 0; i < some->length; i++) {
            if (some->items[i].proxy != proxy) continue;
            while (at < all->length && all->items[at].proxy != proxy) at++;
            if (at == all->length || !is_same(&some->items[i], &all->items[at])) return false;
            at++;
            looked++;
        }
    }
    return looked == some->length;
}

static size_t refuse_core(const Chain *chain) {
    Answers all = {NULL, 0, 0};
    refuse_at = 0;
    int stop = run_core(chain, &all);
    size_t number = calls;
    for (refuse_at = 1; refuse_at <= number; refuse_at++) {
        Answers some = {NULL, 0, 0};
        int met = run_core(chain, &some);
        DEMAND(met == stop || met == ARCHCARAWAY_MEMORY);
        stops += met != stop;
        DEMAND(are_beginnings(&some, &all, chain->proxies));
        DEMAND(met != stop || some.length == all.length);
        free_answers(&some);
    }
    free_answers(&all);
    return number;
}

// Resolves the batches of the chain by a set, and puts the replies one after another.
static int run_set(const Chain *chain, Text *replies) {
    static uint8_t reply[100000];
    archcaraway_set set = ARCHCARAWAY_NONE;
    int status;
    calls = 0;
    status = LIBRARY(archcaraway_set_new(chain->window, chain->limit, &set));
    if (status != ARCHCARAWAY_OK) DEMAND(status == ARCHCARAWAY_MEMORY && set.at == NULL);
    for (size_t i = 0; i < chain->length && status == ARCHCARAWAY_OK; i++) {
        Bytes frame = written_frame(&chain->chain[i]);
        size_t length;
        while (is_again(status = LIBRARY(archcaraway_set_resolve(&set, frame.bytes, frame.length,
                                                                 reply, sizeof reply, &length)))) {
        }
        for (size_t k = 0; status == ARCHCARAWAY_OK && k < length; k++) put(replies, reply[k], 1);
        if (status != ARCHCARAWAY_OK) {
            int met = status;
            DEMAND(met == ARCHCARAWAY_MEMORY || met == ARCHCARAWAY_ARENA_FULL);
            DEMAND(LIBRARY(archcaraway_set_resolve(&set, frame.bytes, frame.length, reply,
                                                   sizeof reply, &length)) == met);
        }
        free(frame.bytes);
    }
    enter();
    archcaraway_set_free(&set);
    leave(0);
    DEMAND(held == 0);
    return status;
}

// More transactions than a new batch has room for.
enum { MANY = 150 };

// Adds a transaction again until it isn't refused.
static void add(archcaraway_batch *batch, const archcaraway_txn *txn) {
    const size_t room = archcaraway_batch_room(batch);
    while (is_again(LIBRARY(archcaraway_batch_add(batch, txn))))
        DEMAND(archcaraway_batch_room(batch) == room);
    DEMAND(archcaraway_batch_room(batch) == room - 1);
}

// Appends a batch to an empty one, again until that isn't refused.
static void append(archcaraway_batch *batch, archcaraway_batch *other) {
    const size_t room = archcaraway_batch_room(batch);
    while (is_again(LIBRARY(archcaraway_batch_append(batch, other))))
        DEMAND(archcaraway_batch_room(batch) == room);
    DEMAND(archcaraway_batch_room(batch) == archcaraway_batch_room(other));
}

// Judges the batches of the chain without frames, each appended to another, and puts the verdicts
// one after another. The first batch has each of its transactions many times.
static int run_batches(const Chain *chain, Text *said) {
    static uint8_t verdicts[ARCHCARAWAY_MAX_TRANSACTIONS];
    archcaraway_set set = ARCHCARAWAY_NONE;
    archcaraway_batch one = ARCHCARAWAY_NONE, other = ARCHCARAWAY_NONE;
    calls = 0;
    int status = LIBRARY(archcaraway_set_new(chain->window, chain->limit, &set));
    if (status == ARCHCARAWAY_OK) status = LIBRARY(archcaraway_batch_new(&one));
    if (status == ARCHCARAWAY_OK) status = LIBRARY(archcaraway_batch_new(&other));
    DEMAND(status == ARCHCARAWAY_OK || (status == ARCHCARAWAY_MEMORY && other.at == NULL));
    for (size_t i = 0; i < chain->length && status == ARCHCARAWAY_OK; i++) {
        const Batch *batch = &chain->chain[i];
        Values values = values_of(batch);
        const size_t count = batch->count == 0 ? 0 : batch->count + (i == 0 ? MANY : 0);
        archcaraway_batch_clear(&one);
        archcaraway_batch_clear(&other);
        for (size_t k = 0; k < count; k++) add(&one, &values.txns[k % batch->count]);
        append(&other, &one);
        while (is_again(status = LIBRARY(archcaraway_set_judge_batch(&set, batch->version, &other,
                                                                     verdicts, count)))) {
        }
        DEMAND(status >= ARCHCARAWAY_OK && status <= ARCHCARAWAY_ARENA_FULL);
        for (size_t k = 0; status == ARCHCARAWAY_OK && k < count; k++) put(said, verdicts[k], 1);
        free_values(&values);
    }
    enter();
    archcaraway_set_free(&set);
    archcaraway_batch_free(&one);
    archcaraway_batch_free(&other);
    leave(0);
    DEMAND(held == 0);
    return status;
}

// Refuses each allocation of a run in turn. What is said then is a beginning of all.
static size_t refuse(int (*run)(const Chain *, Text *), const Chain *chain) {
    Text all = {NULL, 0, 0};
    refuse_at = 0;
    int stop = run(chain, &all);
    size_t number = calls;
    for (refuse_at = 1; refuse_at <= number; refuse_at++) {
        Text some = {NULL, 0, 0};
        int met = run(chain, &some);
        DEMAND(met == stop || met == ARCHCARAWAY_MEMORY);
        stops += met != stop;
        DEMAND(some.length <= all.length &&
               (some.length == 0 || memcmp(some.bytes, all.bytes, some.length) == 0));
        DEMAND(met != stop || some.length == all.length);
        free(some.bytes);
    }
    free(all.bytes);
    return number;
}

// Splits at two keys, clips a batch to each shard, and combines its replies, each call again until
// it isn't refused. Returns the status of the split points.
static int run_shards(const Batch *batch) {
    static uint8_t clip[100000], reply[100000];
    static const uint8_t keys[] = "ab";
    const archcaraway_bytes given[] = {{keys, 1}, {keys, 2}};
    archcaraway_split_points points = ARCHCARAWAY_NONE;
    archcaraway_set set = ARCHCARAWAY_NONE;
    Bytes frame = written_frame(batch);
    size_t length, bad;
    calls = 0;
    int status = LIBRARY(archcaraway_split_points_new(given, 2, &points, &bad));
    DEMAND(bad == 2 &&
           (status == ARCHCARAWAY_OK || (status == ARCHCARAWAY_MEMORY && points.at == NULL)));
    Text replies = {NULL, 0, 0};
    for (size_t shard = 0; status == ARCHCARAWAY_OK && shard < 3; shard++) {
        while (is_again(LIBRARY(archcaraway_clip(&points, shard, frame.bytes, frame.length, clip,
                                                 sizeof clip, &length)))) {
            DEMAND(length == 0);
        }
        DEMAND(archcaraway_set_new(ARCHCARAWAY_WINDOW, ARCHCARAWAY_LIMIT, &set) == ARCHCARAWAY_OK);
        DEMAND(archcaraway_set_resolve(&set, clip, length, reply, sizeof reply, &length) ==
               ARCHCARAWAY_OK);
        for (size_t k = 0; k < length; k++) put(&replies, reply[k], 1);
        archcaraway_set_free(&set);
    }
    if (status == ARCHCARAWAY_OK) {
        int met;
        while (is_again(met = LIBRARY(archcaraway_combine(&points, frame.bytes, frame.length,
                                                          replies.bytes, replies.length, reply,
                                                          sizeof reply, &length, &bad)))) {
            DEMAND(length == 0 && bad <= 3);
        }
        DEMAND(met == ARCHCARAWAY_OK && length != 0);
    }
    enter();
    archcaraway_split_points_free(&points);
    leave(0);
    DEMAND(held == 0);
    free(replies.bytes);
    free(frame.bytes);
    return status;
}

static size_t refuse_shards(const Batch *batch) {
    refuse_at = 0;
    DEMAND(run_shards(batch) == ARCHCARAWAY_OK);
    size_t number = calls;
    for (refuse_at = 1; refuse_at <= number; refuse_at++)
        stops += run_shards(batch) != ARCHCARAWAY_OK;
    return number;
}

int main(int count, char **words) {
    DEMAND(count == 3);
    size_t chains = (size_t)strtoul(words[1], NULL, 10), refused = 0;
    Random random = {strtoull(words[2], NULL, 10)};
    for (size_t number = 0; number < chains; number++) {
        Chain chain = random_chain(&random);
        if (chain.length < 60) {
            refused += refuse_core(&chain);
            refused += refuse(run_set, &chain);
            refused += refuse(run_batches, &chain);
            refused += refuse_shards(&chain.chain[chain.length - 1]);
        }
        free_chain(&chain);
    }
    printf("refused: %zu allocations in turn; %zu stops, %zu calls made again; nothing lost, "
           "nothing leaked\n",
           refused, stops, again);
    return 0;
}
