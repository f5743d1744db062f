// Times a set on a file of batch frames, in one thread.
//
//     bench FILE [LIMIT]
//
// Each batch is given twice: with no room for a reply, where the library decodes the frame and
// refuses it, and then with room. It prints the seconds of both, and their difference, which is
// that of judging, remembering and writing the reply.
#include <stdlib.h>
#include <time.h>

#include "chains.h"

static double now(void) {
    struct timespec time;
    clock_gettime(CLOCK_MONOTONIC, &time);
    return (double)time.tv_sec + (double)time.tv_nsec / 1e9;
}

int main(int count, char **words) {
    DEMAND(count == 2 || count == 3);
    FILE *file = fopen(words[1], "rb");
    DEMAND(file != NULL && fseek(file, 0, SEEK_END) == 0);
    size_t length = (size_t)ftell(file);
    uint8_t *bytes = (uint8_t *)demand_memory(length),
            *reply = (uint8_t *)demand_memory(ARCHCARAWAY_MAX_REPLY);
    rewind(file);
    DEMAND(fread(bytes, 1, length, file) == length);
    fclose(file);

    archcaraway_set set = ARCHCARAWAY_NONE;
    uint64_t limit = count == 3 ? strtoull(words[2], NULL, 10) : ARCHCARAWAY_LIMIT;
    DEMAND(archcaraway_set_new(ARCHCARAWAY_WINDOW, limit, &set) == ARCHCARAWAY_OK);
    double decoding = 0, whole = 0;
    size_t batches = 0, transactions = 0, verdicts[3] = {0, 0, 0};
    for (size_t at = 0; at < length; batches++) {
        size_t frame = 4 + (size_t)archcaraway_number(bytes + at, 4), reply_length;
        double start = now();
        int status = archcaraway_set_resolve(&set, bytes + at, frame, NULL, 0, &reply_length);
        double middle = now();
        DEMAND(status == ARCHCARAWAY_BUFFER);
        status = archcaraway_set_resolve(&set, bytes + at, frame, reply, ARCHCARAWAY_MAX_REPLY,
                                         &reply_length);
        whole += now() - middle;
        decoding += middle - start;
        DEMAND(status == ARCHCARAWAY_OK);
        archcaraway_reply read;
        archcaraway_entry entry;
        DEMAND(archcaraway_reply_read(&read, reply, reply_length) == ARCHCARAWAY_OK);
        while (archcaraway_reply_next(&read, &entry)) {
            verdicts[entry.verdict]++;
            transactions++;
        }
        at += frame;
    }
    printf("%zu batches, %zu transactions: %zu committed, %zu conflict, %zu too old; %" PRIu64
           " boundaries at the end\n"
           "seconds: %.4f whole, of which %.4f decoding and %.4f the rest\n",
           batches, transactions, verdicts[2], verdicts[0], verdicts[1],
           archcaraway_set_boundaries(&set), whole, decoding, whole - decoding);
    archcaraway_set_free(&set);
    free(bytes);
    free(reply);
    return 0;
}
