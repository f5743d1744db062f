// Compares archcaraway_frames.h with the codec of the crate `wire`, byte for byte.
//
//     frames BATCHES SEED
//
// Writes random batches, and reads random replies, complete, cut and with bytes changed. The codec
// reads each batch as the header writes it, and writes it in version 1. chains.h spells both
// versions by the tables of docs/WIRE.md, and one batch has one spelling in each.
#include <stdlib.h>

#include "chains.h"

// The exports of the crate `codec_c`: 0, or the number of the refusal.
int32_t codec_encode_batch_1(const uint8_t *frame, size_t length, uint8_t *out, size_t capacity,
                             size_t *out_length);
int32_t codec_read_reply(const uint8_t *frame, size_t length, uint8_t *out, size_t capacity,
                         size_t *out_length);

static uint8_t out[5000000];

// A memory that ends right after the requested bytes, and that moves each time.
static uint8_t *grow_by_copy(void *context, uint8_t *bytes, size_t length, size_t capacity) {
    ++*(size_t *)context;
    uint8_t *grown = NULL;
    if (capacity != 0) {
        grown = (uint8_t *)demand_memory(capacity);
        if (length != 0) memcpy(grown, bytes, length);
    }
    free(bytes);
    return grown;
}

static void compare_batch(const Batch *batch, archcaraway_writer *writer) {
    DEMAND(write_batch(writer, batch) == ARCHCARAWAY_OK);
    Bytes second = spelled_frame(batch, 2), first = spelled_frame(batch, 1);
    size_t length = 0;
    DEMAND(writer->length == second.length &&
           memcmp(writer->bytes, second.bytes, second.length) == 0);
    DEMAND(archcaraway_frame_length(writer->bytes, writer->length, &length) == ARCHCARAWAY_OK &&
           length == writer->length);
    DEMAND(archcaraway_frame_length(writer->bytes, writer->length - 1, &length) ==
               ARCHCARAWAY_FRAME_SHORT &&
           length == 0);
    DEMAND(codec_encode_batch_1(writer->bytes, writer->length, out, sizeof out, &length) == 0);
    DEMAND(length == first.length && memcmp(out, first.bytes, length) == 0);
    free(first.bytes);
    free(second.bytes);
}

// A batch that is long enough for the limits now and then.
static void compare_batches(size_t count, Random *random) {
    size_t grown = 0;
    archcaraway_writer writer = archcaraway_writer_new(grow_by_copy, &grown);
    for (size_t i = 0; i < count; i++) {
        Batch batch = {-1, 0, -1, 0, NULL};
        bool large = one_in(random, 500);
        batch.version = one_in(random, 10) ? INT64_MAX - (int64_t)below(random, 3)
                                           : (int64_t)below(random, 1000);
        if (one_in(random, 2))
            batch.previous =
                batch.version - 1 - (int64_t)below(random, (size_t)batch.version % 50 + 1);
        if (one_in(random, 2))
            batch.received =
                batch.version - 1 - (int64_t)below(random, (size_t)batch.version % 50 + 1);
        add_transactions(random, &batch, large ? 300 : 4, large ? 12 : 3, 20,
                         !large && one_in(random, 20));
        compare_batch(&batch, &writer);
        free_batch(&batch);
        if (one_in(random, 50)) archcaraway_writer_free(&writer);
    }
    archcaraway_writer_free(&writer);
    DEMAND(grown > 0);
}

// A reply as the tables of docs/WIRE.md spell it.
static Bytes random_reply(Random *random) {
    Text text = {NULL, 0, 0};
    unsigned count = (unsigned)below(random, 6);
    put(&text, 0, 4);
    put(&text, 2, 1);
    put(&text, next(random) >> 1, 8);
    put(&text, count, 2);
    for (unsigned i = 0; i < count; i++) {
        unsigned verdict = (unsigned)below(random, 3),
                 places = verdict == 0 ? (unsigned)below(random, 5) : 0;
        put(&text, verdict, 1);
        put(&text, places, 2);
        for (unsigned place = 0, at = 0; place < places; place++) {
            at += (unsigned)below(random, one_in(random, 3) ? 200 : 3);
            put(&text, at++, 2);
        }
    }
    size_t length = text.length;
    text.length = 0;
    put(&text, length - 4, 4);
    return (Bytes){text.bytes, length};
}

// Spells again what the header's reader says.
static size_t spell_again(archcaraway_reply reply) {
    Text text = {NULL, 0, 0};
    archcaraway_entry entry;
    put(&text, reply.length - 4, 4);
    put(&text, 2, 1);
    put(&text, (uint64_t)reply.version, 8);
    put(&text, reply.count, 2);
    while (archcaraway_reply_next(&reply, &entry)) {
        put(&text, (uint64_t)entry.verdict, 1);
        put(&text, entry.count, 2);
        for (unsigned i = 0; i < entry.count; i++)
            put(&text, archcaraway_entry_place(&entry, i), 2);
    }
    size_t length = text.length;
    DEMAND(length == reply.length && memcmp(text.bytes, out, length) == 0);
    free(text.bytes);
    return length;
}

// Compares the status with the codec's, and a reply with what the codec writes of it.
static int compare_reply(const uint8_t *bytes, size_t length) {
    // A copy with nothing after it, so that a sanitizer sees a byte too many.
    Bytes exact = copy_bytes(bytes, length);
    archcaraway_reply reply;
    size_t out_length = 0;
    int status = archcaraway_reply_read(&reply, exact.bytes, length);
    int fault = codec_read_reply(exact.bytes, length, out, sizeof out, &out_length);
    DEMAND(status == (fault == 0 ? 0 : 100 + fault));
    if (status == ARCHCARAWAY_OK) DEMAND(spell_again(reply) == out_length);
    free(exact.bytes);
    return status;
}

static void compare_replies(size_t count, Random *random, size_t *faults) {
    for (size_t i = 0; i < count; i++) {
        Bytes reply = random_reply(random);
        faults[compare_reply(reply.bytes, reply.length)]++;
        faults[compare_reply(reply.bytes, below(random, reply.length))]++;
        for (unsigned change = 0; change < 3; change++) {
            size_t at = one_in(random, 3) ? below(random, reply.length)
                                          : below(random, reply.length < 20 ? reply.length : 20);
            uint8_t stood = reply.bytes[at];
            reply.bytes[at] = one_in(random, 2) ? (uint8_t)next(random)
                                                : (uint8_t)(stood + (one_in(random, 2) ? 1 : 255));
            faults[compare_reply(reply.bytes, reply.length)]++;
            if (one_in(random, 2)) reply.bytes[at] = stood;
        }
        free(reply.bytes);
    }
}

// What the header refuses, it refuses by the name that a decoder has for it.
static void refusals(void) {
    static uint8_t long_key[ARCHCARAWAY_MAX_KEY + 1];
    const uint8_t *a = (const uint8_t *)"a", *b = (const uint8_t *)"b";
    size_t grown = 0;
    archcaraway_writer writer = archcaraway_writer_new(grow_by_copy, &grown);
    DEMAND(archcaraway_batch_end(&writer) == ARCHCARAWAY_ARGUMENT);
    DEMAND(archcaraway_batch_begin(&writer, -2, 0, -1) == ARCHCARAWAY_FRAME_VERSION);
    DEMAND(archcaraway_batch_begin(&writer, 0, 0, -1) == ARCHCARAWAY_FRAME_VERSION);
    DEMAND(archcaraway_batch_begin(&writer, -1, 0, 0) == ARCHCARAWAY_FRAME_VERSION);
    DEMAND(archcaraway_batch_begin(&writer, -1, 0, -1) == ARCHCARAWAY_OK);
    DEMAND(archcaraway_batch_read(&writer, a, 1, b, 1) == ARCHCARAWAY_ARGUMENT);
    DEMAND(archcaraway_batch_end(&writer) == ARCHCARAWAY_ARGUMENT);
    archcaraway_batch_begin(&writer, -1, 0, -1);
    DEMAND(archcaraway_batch_transaction(&writer, -1, false) == ARCHCARAWAY_FRAME_VERSION);
    archcaraway_batch_begin(&writer, -1, 0, -1);
    archcaraway_batch_transaction(&writer, 0, false);
    DEMAND(archcaraway_batch_read(&writer, b, 1, a, 1) == ARCHCARAWAY_FRAME_INVERTED);
    archcaraway_batch_begin(&writer, -1, 0, -1);
    archcaraway_batch_transaction(&writer, 0, false);
    DEMAND(archcaraway_batch_write(&writer, NULL, 0, long_key, sizeof long_key) ==
           ARCHCARAWAY_FRAME_KEY_LENGTH);
    archcaraway_batch_begin(&writer, -1, 0, -1);
    archcaraway_batch_transaction(&writer, 0, false);
    DEMAND(archcaraway_batch_write(&writer, NULL, 0, NULL, 0) == ARCHCARAWAY_OK);
    DEMAND(archcaraway_batch_read(&writer, NULL, 0, NULL, 0) == ARCHCARAWAY_ARGUMENT);
    archcaraway_batch_begin(&writer, -1, 0, -1);
    for (int i = 0; i < ARCHCARAWAY_MAX_TRANSACTIONS; i++) {
        DEMAND(archcaraway_batch_transaction(&writer, 0, false) == ARCHCARAWAY_OK);
    }
    DEMAND(archcaraway_batch_transaction(&writer, 0, false) == ARCHCARAWAY_FRAME_COUNT);
    archcaraway_batch_begin(&writer, -1, 0, -1);
    archcaraway_batch_transaction(&writer, 0, false);
    for (int i = 0; i < ARCHCARAWAY_MAX_RANGES; i++) {
        DEMAND(archcaraway_batch_read(&writer, NULL, 0, NULL, 0) == ARCHCARAWAY_OK);
        DEMAND(i != 0 || archcaraway_batch_read(&writer, a, 1, b, 1) == ARCHCARAWAY_OK);
        if (i == ARCHCARAWAY_MAX_RANGES - 2) break;
    }
    DEMAND(archcaraway_batch_read(&writer, NULL, 0, NULL, 0) == ARCHCARAWAY_FRAME_COUNT);
    // Single keys: the longest, a longer one, too many, and a read after a write.
    archcaraway_batch_begin(&writer, -1, 0, -1);
    archcaraway_batch_transaction(&writer, 0, false);
    DEMAND(archcaraway_batch_read_key(&writer, long_key, ARCHCARAWAY_MAX_KEY - 1) ==
           ARCHCARAWAY_OK);
    DEMAND(archcaraway_batch_write_key(&writer, NULL, 0) == ARCHCARAWAY_OK);
    DEMAND(archcaraway_batch_end(&writer) == ARCHCARAWAY_OK &&
           writer.length == 31 + 13 + 3 + 10000 + 3);
    DEMAND(archcaraway_batch_read_key(&writer, a, 1) == ARCHCARAWAY_ARGUMENT);
    archcaraway_batch_begin(&writer, -1, 0, -1);
    archcaraway_batch_transaction(&writer, 0, false);
    DEMAND(archcaraway_batch_write_key(&writer, long_key, ARCHCARAWAY_MAX_KEY) ==
           ARCHCARAWAY_FRAME_KEY_LENGTH);
    archcaraway_batch_begin(&writer, -1, 0, -1);
    DEMAND(archcaraway_batch_write_key(&writer, a, 1) == ARCHCARAWAY_ARGUMENT);
    archcaraway_batch_begin(&writer, -1, 0, -1);
    archcaraway_batch_transaction(&writer, 0, false);
    DEMAND(archcaraway_batch_write_key(&writer, NULL, 1) == ARCHCARAWAY_ARGUMENT);
    archcaraway_batch_begin(&writer, -1, 0, -1);
    archcaraway_batch_transaction(&writer, 0, false);
    for (int i = 0; i < ARCHCARAWAY_MAX_RANGES; i++)
        DEMAND(archcaraway_batch_write_key(&writer, a, 1) == ARCHCARAWAY_OK);
    DEMAND(archcaraway_batch_write_key(&writer, a, 1) == ARCHCARAWAY_FRAME_COUNT);
    // 4,194,304 bytes of body and no more.
    archcaraway_batch_begin(&writer, -1, 0, -1);
    int status = ARCHCARAWAY_OK;
    for (int i = 0; status == ARCHCARAWAY_OK; i++) {
        if (i % 200 == 0) archcaraway_batch_transaction(&writer, 0, false);
        status = archcaraway_batch_write(&writer, long_key, ARCHCARAWAY_MAX_KEY, long_key,
                                         ARCHCARAWAY_MAX_KEY);
    }
    DEMAND(status == ARCHCARAWAY_FRAME_LONG);
    DEMAND(archcaraway_batch_begin(&writer, -1, 0, -1) == ARCHCARAWAY_OK &&
           archcaraway_batch_end(&writer) == ARCHCARAWAY_OK);
    DEMAND(writer.length == 31);
    archcaraway_batch_begin(&writer, 3, 9, 4);
    DEMAND(archcaraway_batch_end(&writer) == ARCHCARAWAY_OK);
    Bytes empty = copy_bytes(writer.bytes, writer.length);
    archcaraway_batch_begin(&writer, -1, 0, -1);
    DEMAND(archcaraway_batch_versions(&writer, 3, 9, 4) == ARCHCARAWAY_OK &&
           archcaraway_batch_end(&writer) == ARCHCARAWAY_OK);
    DEMAND(writer.length == empty.length && memcmp(writer.bytes, empty.bytes, empty.length) == 0);
    free(empty.bytes);
    DEMAND(archcaraway_batch_versions(&writer, 3, 3, -1) == ARCHCARAWAY_FRAME_VERSION);
    DEMAND(archcaraway_batch_versions(&writer, 3, 9, 4) == ARCHCARAWAY_FRAME_VERSION);
    archcaraway_writer_free(&writer);
    // Null.
    archcaraway_writer_free(NULL);
    DEMAND(archcaraway_batch_begin(NULL, -1, 0, -1) == ARCHCARAWAY_ARGUMENT);
    DEMAND(archcaraway_batch_versions(NULL, -1, 0, -1) == ARCHCARAWAY_ARGUMENT);
    DEMAND(archcaraway_batch_transaction(NULL, 0, false) == ARCHCARAWAY_ARGUMENT);
    DEMAND(archcaraway_batch_read(NULL, a, 1, b, 1) == ARCHCARAWAY_ARGUMENT);
    DEMAND(archcaraway_batch_write(NULL, a, 1, b, 1) == ARCHCARAWAY_ARGUMENT);
    DEMAND(archcaraway_batch_read_key(NULL, a, 1) == ARCHCARAWAY_ARGUMENT);
    DEMAND(archcaraway_batch_write_key(NULL, a, 1) == ARCHCARAWAY_ARGUMENT);
    DEMAND(archcaraway_batch_end(NULL) == ARCHCARAWAY_ARGUMENT);
    archcaraway_reply reply;
    archcaraway_entry entry = {ARCHCARAWAY_CONFLICT, 0, NULL};
    size_t length = 9;
    DEMAND(archcaraway_reply_read(NULL, a, 1) == ARCHCARAWAY_ARGUMENT);
    DEMAND(archcaraway_reply_read(&reply, NULL, 1) == ARCHCARAWAY_ARGUMENT && reply.count == 0);
    DEMAND(!archcaraway_reply_next(&reply, &entry) && !archcaraway_reply_next(NULL, &entry));
    DEMAND(!archcaraway_reply_next(&reply, NULL) && archcaraway_entry_place(NULL, 0) == UINT_MAX);
    DEMAND(archcaraway_entry_place(&entry, 0) == UINT_MAX);
    DEMAND(archcaraway_frame_length(NULL, 1, &length) == ARCHCARAWAY_ARGUMENT && length == 0);
    DEMAND(archcaraway_frame_length(a, 1, NULL) == ARCHCARAWAY_ARGUMENT);
    // No function to grow by: that of the C library.
    writer = archcaraway_writer_new(NULL, NULL);
    DEMAND(archcaraway_batch_begin(&writer, -1, 0, -1) == ARCHCARAWAY_OK &&
           writer.grow == archcaraway_grow_malloc);
    archcaraway_writer_free(&writer);
}

int main(int count, char **words) {
    DEMAND(count == 3);
    size_t batches = (size_t)strtoul(words[1], NULL, 10), faults[300] = {0};
    Random random = {strtoull(words[2], NULL, 10)};
    refusals();
    compare_batches(batches, &random);
    compare_replies(batches, &random, faults);
    printf("frames: %zu batches as the tables spell them and decode_batch reads them; %zu replies "
           "as decode_reply reads them, and refused alike:",
           batches, faults[0]);
    for (size_t i = 1; i < 300; i++) {
        if (faults[i] != 0) printf(" wire %zu %zu times;", i - 100, faults[i]);
    }
    printf("\n");
    return 0;
}
