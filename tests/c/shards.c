// Several resolvers: the rows of a file, and what is refused.
//
//     shards tests/shards.txt
#include <stdlib.h>

#include "shards.h"

enum { MOST_SHARDS = 3 };

static const uint8_t *bytes_of(const char *text) { return (const uint8_t *)text; }

// Adds the range of ` R[a,b)` or ` W[a,b)`, and returns what follows it.
static const char *add_range(archcaraway_writer *writer, const char *at) {
    const char *begin = at + 3, *comma = strchr(begin, ','), *end = strchr(begin, ')');
    DEMAND(comma != NULL && end != NULL);
    int status = (at[1] == 'R' ? archcaraway_batch_read : archcaraway_batch_write)(
        writer, bytes_of(begin), (size_t)(comma - begin), bytes_of(comma + 1),
        (size_t)(end - comma - 1));
    DEMAND(status == ARCHCARAWAY_OK);
    return end + 1;
}

// The frame of a batch: `0>100; @50 m R[a,z) W[b,i); @0`.
static Bytes batch_frame(const char *text) {
    archcaraway_writer writer = archcaraway_writer_new(archcaraway_grow_malloc, NULL);
    char *at;
    int64_t previous = strtoll(text, &at, 10), version = strtoll(at + 1, &at, 10);
    archcaraway_batch_begin(&writer, previous, version, -1);
    while (*at == ';') {
        int64_t snapshot = strtoll(at + 3, &at, 10);
        bool report = strncmp(at, " m", 2) == 0;
        archcaraway_batch_transaction(&writer, snapshot, report);
        if (report) at += 2;
        while (*at == ' ') at += add_range(&writer, at) - at;
    }
    DEMAND(*at == 0 && archcaraway_batch_end(&writer) == ARCHCARAWAY_OK);
    Bytes frame = copy_bytes(writer.bytes, writer.length);
    archcaraway_writer_free(&writer);
    return frame;
}

// Appends the frame of a reply: `100: X0,2 C T` has a conflict with places, committed, too old.
static void put_reply(Text *text, const char *reply) {
    char *at;
    size_t begin = text->length, count_at = begin + 13, count = 0;
    put(text, 0, 4);
    put(text, 2, 1);
    put(text, (uint64_t)strtoll(reply, &at, 10), 8);
    put(text, 0, 2);
    for (at++; *at == ' '; count++) {
        size_t places_at = text->length + 1, places = 0;
        put(text, at[1] == 'X' ? 0 : at[1] == 'T' ? 1 : 2, 1);
        put(text, 0, 2);
        for (at += 2; *at != ' ' && *at != 0; places++)
            put(text, (uint64_t)strtoll(at + (*at == ','), &at, 10), 2);
        text->bytes[places_at + 1] = (uint8_t)places;
    }
    DEMAND(*at == 0 && count < 256);
    text->bytes[count_at + 1] = (uint8_t)count;
    text->bytes[begin + 3] = (uint8_t)(text->length - begin - 4);
}

static Bytes reply_frame(const char *reply) {
    Text text = {NULL, 0, 0};
    put_reply(&text, reply);
    return (Bytes){text.bytes, text.length};
}

// Takes the words as split points.
static int split(const char *words, archcaraway_split_points *points, size_t *bad) {
    archcaraway_bytes keys[80];
    size_t count = 0;
    for (const char *at = words; *at != 0; count++) {
        size_t length = strcspn(at, " ");
        keys[count] = (archcaraway_bytes){bytes_of(at), length};
        at += length + (at[length] == ' ');
    }
    return archcaraway_split_points_new(keys, count, points, bad);
}

static void demand_reply(archcaraway_set *set, Bytes frame, const char *want) {
    Bytes reply = reply_frame(want);
    size_t length;
    DEMAND(archcaraway_set_resolve(set, frame.bytes, frame.length, buffer, sizeof buffer,
                                   &length) == ARCHCARAWAY_OK);
    DEMAND(are_same(buffer, length, reply));
    free(reply.bytes);
}

static void demand_combined(const archcaraway_split_points *points, Bytes frame,
                            const Text *replies, const char *want) {
    Bytes reply = reply_frame(want);
    size_t length, bad;
    int status = archcaraway_combine(points, frame.bytes, frame.length, replies->bytes,
                                     replies->length, buffer, sizeof buffer, &length, &bad);
    DEMAND(status == ARCHCARAWAY_OK && bad == archcaraway_split_points_shards(points));
    DEMAND(are_same(buffer, length, reply));
    // A buffer that is one byte too small.
    status = archcaraway_combine(points, frame.bytes, frame.length, replies->bytes, replies->length,
                                 buffer, reply.length - 1, &length, NULL);
    DEMAND(status == ARCHCARAWAY_BUFFER && length == reply.length);
    free(reply.bytes);
}

// A row of tests/shards.txt: its shards, and what has come of its last batch.
typedef struct {
    archcaraway_split_points points;
    archcaraway_set sets[MOST_SHARDS], alone;
    size_t shard;
    Bytes frame, clip;
    Text replies;
} Row;

static void end_row(Row *row) {
    archcaraway_split_points_free(&row->points);
    DEMAND(row->points.at == NULL);
    for (size_t i = 0; i < MOST_SHARDS; i++) archcaraway_set_free(&row->sets[i]);
    archcaraway_set_free(&row->alone);
    free(row->frame.bytes);
    free(row->clip.bytes);
    free(row->replies.bytes);
    memset(row, 0, sizeof *row);
}

static void begin_row(Row *row, const char *words) {
    size_t bad;
    end_row(row);
    DEMAND(split(words, &row->points, &bad) == ARCHCARAWAY_OK);
    DEMAND(bad + 1 == archcaraway_split_points_shards(&row->points) && bad < MOST_SHARDS);
    DEMAND(archcaraway_set_new(ARCHCARAWAY_WINDOW, ARCHCARAWAY_LIMIT, &row->alone) ==
           ARCHCARAWAY_OK);
    for (size_t i = 0; i < MOST_SHARDS; i++) {
        DEMAND(archcaraway_set_new(ARCHCARAWAY_WINDOW, ARCHCARAWAY_LIMIT, &row->sets[i]) ==
               ARCHCARAWAY_OK);
    }
}

static void take_frame(Bytes *kept, const char *text) {
    free(kept->bytes);
    *kept = batch_frame(text);
}

static void take_line(Row *row, const char *word, const char *rest) {
    if (strcmp(word, "points") == 0) {
        begin_row(row, rest);
    } else if (strcmp(word, "batch") == 0) {
        take_frame(&row->frame, rest);
        row->shard = 0;
        row->replies.length = 0;
    } else if (strcmp(word, "clip") == 0) {
        take_frame(&row->clip, rest);
        demand_clip(&row->points, row->shard, row->frame, row->clip);
    } else if (strcmp(word, "reply") == 0) {
        demand_reply(&row->sets[row->shard++], row->clip, rest);
        put_reply(&row->replies, rest);
    } else if (strcmp(word, "combined") == 0) {
        DEMAND(row->shard == archcaraway_split_points_shards(&row->points));
        demand_combined(&row->points, row->frame, &row->replies, rest);
    } else {
        DEMAND(strcmp(word, "alone") == 0);
        demand_reply(&row->alone, row->frame, rest);
    }
}

static void rows(const char *path) {
    char line[400], word[10];
    int at;
    Row row;
    FILE *file = fopen(path, "r");
    DEMAND(file != NULL);
    memset(&row, 0, sizeof row);
    while (fgets(line, sizeof line, file) != NULL) {
        line[strcspn(line, "\n")] = 0;
        if (line[0] == 0 || line[0] == '#') continue;
        DEMAND(sscanf(line, "%9s %n", word, &at) == 1);
        take_line(&row, word, line + at);
    }
    end_row(&row);
    fclose(file);
}

// Split points that are refused, and which key is named.
static void bad_points(void) {
    static const uint8_t zeros[ARCHCARAWAY_MAX_KEY + 1];
    archcaraway_split_points points = ARCHCARAWAY_NONE;
    archcaraway_bytes keys[64];
    size_t bad;
    DEMAND(split("h h", &points, &bad) == ARCHCARAWAY_POINTS_NOT_RISING && bad == 1 &&
           points.at == NULL);
    DEMAND(split("h p c", &points, &bad) == ARCHCARAWAY_POINTS_NOT_RISING && bad == 2);
    for (size_t i = 0; i < 64; i++) keys[i] = (archcaraway_bytes){zeros, i + 1};
    DEMAND(archcaraway_split_points_new(keys, 64, &points, &bad) == ARCHCARAWAY_POINTS_TOO_MANY &&
           bad == 64);
    keys[1].length = ARCHCARAWAY_MAX_KEY + 1;
    DEMAND(archcaraway_split_points_new(keys, 3, &points, &bad) == ARCHCARAWAY_FRAME_KEY_LENGTH &&
           bad == 1);
    keys[1] = (archcaraway_bytes){NULL, 1};
    DEMAND(archcaraway_split_points_new(keys, 3, &points, &bad) == ARCHCARAWAY_ARGUMENT &&
           bad == 3);
    DEMAND(archcaraway_split_points_new(keys, 64, &points, &bad) == ARCHCARAWAY_ARGUMENT &&
           bad == 64);
    keys[0] = (archcaraway_bytes){NULL, 0};
    DEMAND(archcaraway_split_points_new(keys, 1, &points, &bad) == ARCHCARAWAY_POINTS_NOT_RISING &&
           bad == 0);
    DEMAND(archcaraway_split_points_new(NULL, 1, &points, NULL) == ARCHCARAWAY_ARGUMENT);
    DEMAND(archcaraway_split_points_new(keys, 1, NULL, NULL) == ARCHCARAWAY_ARGUMENT);
    DEMAND(archcaraway_split_points_shards(&points) == 0 &&
           archcaraway_split_points_shards(NULL) == 0);
    archcaraway_split_points_free(&points);
    archcaraway_split_points_free(NULL);
    // The most, and a longest key.
    for (size_t i = 0; i < 63; i++) keys[i] = (archcaraway_bytes){zeros, i + 1};
    keys[62].length = ARCHCARAWAY_MAX_KEY;
    DEMAND(archcaraway_split_points_new(keys, 63, &points, &bad) == ARCHCARAWAY_OK && bad == 63);
    DEMAND(archcaraway_split_points_shards(&points) == 64);
    archcaraway_split_points_free(&points);
}

static int combined(const archcaraway_split_points *points, Bytes frame, const char *const *replies,
                    size_t *bad) {
    Text text = {NULL, 0, 0};
    size_t length;
    for (; *replies != NULL; replies++) put_reply(&text, *replies);
    int status = archcaraway_combine(points, frame.bytes, frame.length, text.bytes, text.length,
                                     buffer, sizeof buffer, &length, bad);
    DEMAND(length == 0);
    free(text.bytes);
    return status;
}

// Replies that aren't those to the batch, frames that are none, and shards that aren't there.
static void bad_replies(void) {
    static const struct {
        const char *replies[4];
        int status;
        size_t bad;
    } rows[] = {
        {{"100: X1 C", "200: C C", NULL}, ARCHCARAWAY_MISFIT_VERSION, 1},
        {{"99: X1 C", "100: C C", NULL}, ARCHCARAWAY_MISFIT_VERSION, 0},
        {{"100: X1 C", "100: C", NULL}, ARCHCARAWAY_MISFIT_COUNT, 1},
        {{"100: X2 C", "100: C", NULL}, ARCHCARAWAY_MISFIT_PLACE, 0},
        {{"100: X1 C", "100: X1 C", NULL}, ARCHCARAWAY_MISFIT_PLACE, 1},
        {{"100: X1 C", NULL}, ARCHCARAWAY_FRAME_SHORT, 1},
        {{NULL}, ARCHCARAWAY_FRAME_SHORT, 0},
        {{"100: X1 C", "100: C C", "100: C C", NULL}, ARCHCARAWAY_BEHIND, 2},
    };
    archcaraway_split_points points, none = ARCHCARAWAY_NONE;
    Bytes frame = batch_frame("0>100; @50 m R[a,b) R[c,d) R[x,y); @0 W[c,z)"),
          reply = reply_frame("100: C C");
    size_t bad, length;
    DEMAND(split("m", &points, NULL) == ARCHCARAWAY_OK);
    for (size_t i = 0; i < sizeof rows / sizeof *rows; i++) {
        DEMAND(combined(&points, frame, rows[i].replies, &bad) == rows[i].status);
        DEMAND(bad == rows[i].bad);
    }
    // A batch as the second reply, and a reply as the batch.
    Text text = {NULL, 0, 0};
    put_reply(&text, "100: C C");
    for (size_t i = 0; i < frame.length; i++) put(&text, frame.bytes[i], 1);
    DEMAND(archcaraway_combine(&points, frame.bytes, frame.length, text.bytes, text.length, buffer,
                               ROOM, &length, &bad) == ARCHCARAWAY_FRAME_KIND);
    DEMAND(bad == 1 && length == 0);
    DEMAND(archcaraway_combine(&points, reply.bytes, reply.length, text.bytes, text.length, buffer,
                               ROOM, &length, &bad) == ARCHCARAWAY_FRAME_KIND);
    DEMAND(bad == 2);
    free(text.bytes);
    DEMAND(archcaraway_combine(&points, frame.bytes, frame.length - 1, NULL, 0, buffer, ROOM,
                               &length, &bad) == ARCHCARAWAY_FRAME_SHORT);
    DEMAND(bad == 2);
    DEMAND(archcaraway_combine(&none, frame.bytes, frame.length, NULL, 0, buffer, ROOM, &length,
                               &bad) == ARCHCARAWAY_ARGUMENT);
    DEMAND(archcaraway_combine(&points, frame.bytes, frame.length, NULL, 1, buffer, ROOM, &length,
                               &bad) == ARCHCARAWAY_ARGUMENT);
    DEMAND(archcaraway_clip(&points, 2, frame.bytes, frame.length, buffer, ROOM, &length) ==
           ARCHCARAWAY_ARGUMENT);
    DEMAND(archcaraway_clip(&none, 0, frame.bytes, frame.length, buffer, ROOM, &length) ==
           ARCHCARAWAY_ARGUMENT);
    DEMAND(archcaraway_clip(&points, 0, frame.bytes, frame.length, buffer, ROOM, NULL) ==
           ARCHCARAWAY_ARGUMENT);
    DEMAND(archcaraway_clip(&points, 0, reply.bytes, reply.length, buffer, ROOM, &length) ==
           ARCHCARAWAY_FRAME_KIND);
    DEMAND(archcaraway_clip(&points, 0, frame.bytes, frame.length - 1, buffer, ROOM, &length) ==
           ARCHCARAWAY_FRAME_SHORT);
    DEMAND(archcaraway_clip(&points, 0, NULL, 0, NULL, 0, &length) == ARCHCARAWAY_FRAME_SHORT &&
           length == 0);
    DEMAND(archcaraway_clip(&points, 0, frame.bytes, frame.length, NULL, 0, &length) ==
           ARCHCARAWAY_BUFFER);
    archcaraway_split_points_free(&points);
    free(frame.bytes);
    free(reply.bytes);
}

// A clip whose split points make it too long for a frame: 1,024 ranges over two keys of 10,001
// bytes.
static void long_clip(void) {
    static uint8_t key[ARCHCARAWAY_MAX_KEY];
    archcaraway_bytes keys[2] = {{key, ARCHCARAWAY_MAX_KEY - 1}, {key, ARCHCARAWAY_MAX_KEY}};
    archcaraway_split_points points;
    archcaraway_writer writer = archcaraway_writer_new(archcaraway_grow_malloc, NULL);
    size_t length;
    memset(key, 'k', sizeof key);
    DEMAND(archcaraway_split_points_new(keys, 2, &points, NULL) == ARCHCARAWAY_OK);
    archcaraway_batch_begin(&writer, 0, 100, -1);
    archcaraway_batch_transaction(&writer, 0, false);
    for (size_t i = 0; i < ARCHCARAWAY_MAX_RANGES; i++)
        archcaraway_batch_read(&writer, bytes_of("a"), 1, bytes_of("z"), 1);
    DEMAND(archcaraway_batch_end(&writer) == ARCHCARAWAY_OK);
    DEMAND(archcaraway_clip(&points, 1, writer.bytes, writer.length, buffer, ROOM, &length) ==
           ARCHCARAWAY_FRAME_LONG);
    DEMAND(length == 0);
    archcaraway_writer_free(&writer);
    archcaraway_split_points_free(&points);
}

int main(int count, char **words) {
    DEMAND(count == 2);
    rows(words[1]);
    bad_points();
    bad_replies();
    long_clip();
    return 0;
}
