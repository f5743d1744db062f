// Clips and combined replies beside a plain definition, over random batches.
//
//     clips BATCHES SEED
#include <stdlib.h>

#include "shards.h"

static int order(Bytes a, Bytes b) {
    size_t common = a.length < b.length ? a.length : b.length;
    int by_bytes = common == 0 ? 0 : memcmp(a.bytes, b.bytes, common);
    return by_bytes != 0 ? by_bytes : (a.length > b.length) - (a.length < b.length);
}

// The clip of a range to the keys from one on up to another, if the range goes there. A null key is
// no end.
static bool clip_range(const Range *range, Bytes from, Bytes to, Range *clip) {
    *clip = *range;
    if (order(range->begin, range->end) == 0) {
        return order(range->begin, from) >= 0 && (to.bytes == NULL || order(range->begin, to) < 0);
    }
    if (order(clip->begin, from) < 0) clip->begin = from;
    if (to.bytes != NULL && order(to, clip->end) < 0) clip->end = to;
    return order(clip->begin, clip->end) < 0;
}

// The clip of a batch, and for each read range of it the index in its transaction.
typedef struct {
    Batch batch;
    unsigned (*indices)[8];
} Clip;

static Clip clip_batch(const Batch *batch, Bytes from, Bytes to) {
    Clip clip = {*batch, demand_memory(batch->count * sizeof *clip.indices)};
    clip.batch.transactions = demand_memory(batch->count * sizeof(Transaction));
    for (unsigned i = 0; i < batch->count; i++) {
        const Transaction *t = &batch->transactions[i];
        Transaction *own = &clip.batch.transactions[i];
        *own = *t;
        own->ranges = demand_memory((t->reads + t->writes) * sizeof(Range));
        own->reads = own->writes = 0;
        for (unsigned k = 0; k < t->reads + t->writes; k++) {
            if (!clip_range(&t->ranges[k], from, to, &own->ranges[own->reads + own->writes]))
                continue;
            if (k < t->reads) clip.indices[i][own->reads++] = k;
            else own->writes++;
        }
    }
    return clip;
}

static void free_clip(Clip *clip) {
    for (unsigned i = 0; i < clip->batch.count; i++) free(clip->batch.transactions[i].ranges);
    free(clip->batch.transactions);
    free(clip->indices);
}

// Draws rising keys from the ends of ranges, and returns how many.
static size_t draw_points(Random *random, const Batch *batch, Bytes *keys, size_t most) {
    size_t count = 0;
    for (unsigned i = 0; i < batch->count; i++) {
        const Transaction *t = &batch->transactions[i];
        for (unsigned k = 0; k < t->reads + t->writes; k++) {
            Bytes key = one_in(random, 2) ? t->ranges[k].begin : t->ranges[k].end;
            size_t at = 0;
            if (count == most || key.length == 0 || one_in(random, 2)) continue;
            while (at < count && order(keys[at], key) < 0) at++;
            if (at < count && order(keys[at], key) == 0) continue;
            memmove(keys + at + 1, keys + at, (count - at) * sizeof *keys);
            keys[at] = key;
            count++;
        }
    }
    return count;
}

// Adds a random reply to the clip, and its verdicts and reports to those of all shards.
static void add_reply(Random *random, const Clip *clip, Text *replies, unsigned *least,
                      bool (*reported)[8]) {
    size_t begin = replies->length;
    put(replies, 0, 4);
    put(replies, 2, 1);
    put(replies, (uint64_t)clip->batch.version, 8);
    put(replies, clip->batch.count, 2);
    for (unsigned i = 0; i < clip->batch.count; i++) {
        unsigned verdict = one_in(random, 2) ? 2 : (unsigned)below(random, 3), count = 0, places[8];
        for (unsigned k = 0; verdict == 0 && k < clip->batch.transactions[i].reads; k++) {
            if (one_in(random, 2)) continue;
            places[count++] = k;
            reported[i][clip->indices[i][k]] = true;
        }
        if (verdict < least[i]) least[i] = verdict;
        put(replies, verdict, 1);
        put(replies, count, 2);
        for (unsigned k = 0; k < count; k++) put(replies, places[k], 2);
    }
    Text length = {replies->bytes + begin, 0, 4};
    put(&length, replies->length - begin - 4, 4);
}

static Bytes plain_reply(const Batch *batch, const unsigned *least, bool (*reported)[8]) {
    Text text = {NULL, 0, 0};
    put(&text, 0, 4);
    put(&text, 2, 1);
    put(&text, (uint64_t)batch->version, 8);
    put(&text, batch->count, 2);
    for (unsigned i = 0; i < batch->count; i++) {
        unsigned count = 0;
        for (unsigned k = 0; k < 8; k++) count += reported[i][k];
        put(&text, least[i], 1);
        put(&text, count, 2);
        for (unsigned k = 0; k < 8; k++) {
            if (reported[i][k]) put(&text, k, 2);
        }
    }
    Bytes reply = {text.bytes, text.length};
    text.length = 0;
    put(&text, reply.length - 4, 4);
    return reply;
}

static void random_batch(Random *random) {
    Chain chain = {NULL, 0, 1, 1, 0, 0, 0, NULL, NULL};
    Bytes keys[8];
    archcaraway_bytes given[8];
    archcaraway_split_points points;
    unsigned least[8];
    bool reported[8][8];
    Text replies = {NULL, 0, 0};
    make_chain(random, &chain, 1, 7, 7, 20, one_in(random, 20));
    const Batch *batch = &chain.chain[0];
    Bytes frame = any_frame(random, batch);
    size_t count = draw_points(random, batch, keys, below(random, 8)), length, bad;
    for (size_t i = 0; i < count; i++)
        given[i] = (archcaraway_bytes){keys[i].bytes, keys[i].length};
    DEMAND(archcaraway_split_points_new(given, count, &points, NULL) == ARCHCARAWAY_OK);
    memset(reported, 0, sizeof reported);
    for (size_t i = 0; i < 8; i++) least[i] = 2;
    for (size_t shard = 0; shard <= count; shard++) {
        Bytes none = {NULL, 0};
        Clip clip = clip_batch(batch, shard == 0 ? none : keys[shard - 1],
                               shard == count ? none : keys[shard]);
        Bytes want = spelled_frame(&clip.batch, 2);
        demand_clip(&points, shard, frame, want);
        add_reply(random, &clip, &replies, least, reported);
        free(want.bytes);
        free_clip(&clip);
    }
    Bytes want = plain_reply(batch, least, reported);
    DEMAND(archcaraway_combine(&points, frame.bytes, frame.length, replies.bytes, replies.length,
                               buffer, ROOM, &length, &bad) == ARCHCARAWAY_OK);
    DEMAND(bad == count + 1 && are_same(buffer, length, want));
    free(want.bytes);
    free(replies.bytes);
    free(frame.bytes);
    archcaraway_split_points_free(&points);
    free_chain(&chain);
}

int main(int count, char **words) {
    DEMAND(count == 3);
    Random random = {strtoull(words[2], NULL, 10)};
    for (size_t left = strtoull(words[1], NULL, 10); left > 0; left--) random_batch(&random);
    return 0;
}
