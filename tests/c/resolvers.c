// Replays recorded files with a resolver per shard, and prints what `replay --resolvers` prints.
//
//     resolvers POINTS WINDOW LIMIT FILE..
//
// POINTS has the split points as hexadecimal digits, with commas between them.
#include <stdlib.h>

#include "shards.h"

enum { MAX_SHARDS = 4 };

static archcaraway_split_points points;
static size_t shards;
static archcaraway_core cores[MAX_SHARDS];

// The batches of all files, and the answers of each shard.
static Answers batches, answers[MAX_SHARDS];

static void read_points(char *text) {
    archcaraway_bytes keys[MAX_SHARDS - 1];
    for (char *digits = strtok(text, ","); digits != NULL; digits = strtok(NULL, ",")) {
        size_t length = strlen(digits) / 2;
        uint8_t *key = (uint8_t *)demand_memory(length);
        for (size_t i = 0; i < length; i++) DEMAND(sscanf(digits + 2 * i, "%2hhx", &key[i]) == 1);
        DEMAND(shards < MAX_SHARDS - 1);
        keys[shards++] = (archcaraway_bytes){key, length};
    }
    DEMAND(archcaraway_split_points_new(keys, shards, &points, NULL) == ARCHCARAWAY_OK);
    for (size_t i = 0; i < shards; i++) free((void *)keys[i].bytes);
    shards = archcaraway_split_points_shards(&points);
}

static uint64_t number_at(const uint8_t *bytes, size_t size) {
    uint64_t number = 0;
    for (size_t i = 0; i < size; i++) number = number << 8 | bytes[i];
    return number;
}

// Clips a batch to every shard, and gives each core its clip. A core that has stopped takes none.
static void send_batch(unsigned proxy, Bytes frame) {
    int64_t version = (int64_t)number_at(frame.bytes + 13, 8);
    keep_answer(&batches, (Answer){proxy, ARCHCARAWAY_NOTHING, version, frame});
    for (size_t shard = 0; shard < shards; shard++) {
        size_t length;
        DEMAND(archcaraway_clip(&points, shard, frame.bytes, frame.length, buffer, ROOM, &length) ==
               ARCHCARAWAY_OK);
        int status = archcaraway_core_admit(&cores[shard], proxy, buffer, length);
        DEMAND(status == archcaraway_core_stop(&cores[shard]));
    }
}

static void send_file(unsigned proxy, const char *path) {
    FILE *file = fopen(path, "rb");
    uint8_t head[4];
    DEMAND(file != NULL);
    while (fread(head, 1, 4, file) == 4) {
        size_t body = number_at(head, 4);
        Bytes frame = {(uint8_t *)demand_memory(4 + body), 4 + body};
        memcpy(frame.bytes, head, 4);
        DEMAND(fread(frame.bytes + 4, 1, body, file) == body);
        send_batch(proxy, frame);
    }
    fclose(file);
}

static void take_answers(size_t shard, unsigned proxies) {
    archcaraway_core_finish(&cores[shard]);
    for (unsigned proxy = 0; proxy < proxies;) {
        Answer answer = {proxy, ARCHCARAWAY_NOTHING, -1, {NULL, 0}};
        size_t length;
        DEMAND(archcaraway_core_give(&cores[shard], proxy, buffer, ROOM, &length, &answer.kind,
                                     &answer.version) == ARCHCARAWAY_OK);
        if (answer.kind == ARCHCARAWAY_NOTHING) {
            proxy++;
        } else {
            answer.frame = copy_bytes(buffer, length);
            keep_answer(&answers[shard], answer);
        }
    }
    sort_answers(&answers[shard]);
}

// Takes the answer of a shard to a batch: none if the shard has stopped before. Both are in order.
static const Answer *next_answer(size_t shard, const Answer *batch) {
    static size_t at[MAX_SHARDS];
    if (at[shard] == answers[shard].length) return NULL;
    const Answer *answer = &answers[shard].items[at[shard]];
    if (comes_before(batch, answer)) return NULL;
    at[shard]++;
    return answer;
}

static void print_combined(Bytes frame, Bytes replies) {
    static const char *const words[] = {"conflict", "tooold", "committed"};
    archcaraway_reply reply;
    archcaraway_entry entry;
    size_t length;
    DEMAND(archcaraway_combine(&points, frame.bytes, frame.length, replies.bytes, replies.length,
                               buffer, ROOM, &length, NULL) == ARCHCARAWAY_OK);
    DEMAND(archcaraway_reply_read(&reply, buffer, length) == ARCHCARAWAY_OK);
    if (reply.count == 0) printf(" empty");
    while (archcaraway_reply_next(&reply, &entry)) {
        printf(" %s", words[entry.verdict]);
        for (unsigned i = 0; i < entry.count; i++) {
            printf("%c%u", i == 0 ? ':' : ',', archcaraway_entry_place(&entry, i));
        }
    }
}

// Prints the line of a batch that all shards have answered.
static void print_line(const Answer *batch) {
    static uint8_t replies[ROOM];
    size_t length = 0, answered = 0;
    bool kinds[4] = {false, false, false, false};
    for (size_t shard = 0; shard < shards; shard++) {
        const Answer *answer = next_answer(shard, batch);
        if (answer == NULL) continue;
        DEMAND(length + answer->frame.length <= ROOM);
        memcpy(replies + length, answer->frame.bytes, answer->frame.length);
        length += answer->frame.length;
        kinds[answer->kind] = true;
        answered++;
    }
    if (answered < shards) return;
    printf("%u %" PRId64, batch->proxy, batch->version);
    if (kinds[ARCHCARAWAY_NEVER]) {
        printf(" never");
    } else if (kinds[ARCHCARAWAY_HELD]) {
        printf(" held");
    } else {
        print_combined(batch->frame, (Bytes){replies, length});
    }
    printf("\n");
}

// Prints the stop of the first shard that has one, and returns the status of the program.
static int print_stop(void) {
    for (size_t shard = 0; shard < shards; shard++) {
        int stop = archcaraway_core_stop(&cores[shard]);
        const char *text = archcaraway_status_text(stop);
        if (stop == ARCHCARAWAY_OK) continue;
        fprintf(stderr, "replay: %.*s\nreplay: shard %zu\n", (int)strcspn(text, ":"), text, shard);
        return 1;
    }
    return 0;
}

int main(int count, char **words) {
    DEMAND(count >= 5);
    unsigned proxies = (unsigned)count - 4;
    int64_t window = strtoll(words[2], NULL, 10);
    uint64_t limit = strtoull(words[3], NULL, 10);
    read_points(words[1]);
    for (size_t shard = 0; shard < shards; shard++) {
        DEMAND(archcaraway_core_new(proxies, window, limit, &cores[shard]) == ARCHCARAWAY_OK);
    }
    for (unsigned proxy = 0; proxy < proxies; proxy++) send_file(proxy, words[4 + proxy]);
    for (size_t shard = 0; shard < shards; shard++) take_answers(shard, proxies);
    sort_answers(&batches);
    for (size_t i = 0; i < batches.length; i++) print_line(&batches.items[i]);
    int status = print_stop();
    for (size_t shard = 0; shard < shards; shard++) {
        archcaraway_core_free(&cores[shard]);
        free_answers(&answers[shard]);
    }
    archcaraway_split_points_free(&points);
    free_answers(&batches);
    return status;
}
