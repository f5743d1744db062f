// SPDX-License-Identifier: Apache-2.0
// Measures the memory of a set per boundary, and that of the replies that a core keeps.
//
//     memory boundaries random|rising range|single KEY_BYTES BATCHES
//     memory replies BATCHES TRANSACTIONS [acknowledged]
//
// A batch of `boundaries` has 100 transactions with one write each. Memory is the growth of the
// resident set, on Linux.
//     cc -O2 -Iinclude bench/memory.c out/quick/libarchcaraway.a -o memory
#include <stdio.h>
#include <stdlib.h>
#include <string.h>
#include <unistd.h>

#include "archcaraway_frames.h"

#define DEMAND(what) ((what) ? (void)0 : (fprintf(stderr, "memory: %s failed\n", #what), exit(1)))

static uint8_t reply[ARCHCARAWAY_MAX_REPLY];

static long resident(void) {
    long all, pages;
    FILE *file = fopen("/proc/self/statm", "r");
    DEMAND(file != NULL && fscanf(file, "%ld %ld", &all, &pages) == 2);
    fclose(file);
    return pages * sysconf(_SC_PAGESIZE);
}

// Ends a key of `length` bytes in a number of twelve digits, drawn by xorshift or rising.
static void write_key(uint8_t *key, size_t length, bool rising) {
    static uint64_t drawn = 88172645463325252, number = 0;
    drawn ^= drawn << 13, drawn ^= drawn >> 7, drawn ^= drawn << 17;
    uint64_t rest = rising ? number++ : drawn;
    memset(key, 'a', length);
    for (size_t digit = 1; digit <= 12 && digit <= length; digit++, rest /= 10)
        key[length - digit] = (uint8_t)('0' + rest % 10);
}

static void boundaries(bool rising, bool single, size_t length, int64_t batches) {
    static uint8_t begin[10001], end[10001];
    size_t size;
    archcaraway_set set = ARCHCARAWAY_NONE;
    archcaraway_writer writer = archcaraway_writer_new(archcaraway_grow_malloc, NULL);
    DEMAND(length > 0 && length <= 10000);
    DEMAND(archcaraway_set_new(ARCHCARAWAY_MAX_WINDOW, ARCHCARAWAY_MAX_LIMIT, &set) == 0);
    long before = resident();
    for (int64_t batch = 0; batch < batches; batch++) {
        archcaraway_batch_begin(&writer, batch - 1, batch, -1);
        for (int transaction = 0; transaction < 100; transaction++) {
            write_key(begin, length, rising);
            memcpy(end, begin, length);
            end[single ? length : length - 1]++;
            if (single) end[length] = 0;
            archcaraway_batch_transaction(&writer, 0, false);
            archcaraway_batch_write(&writer, begin, length, end, length + single);
        }
        DEMAND(archcaraway_batch_end(&writer) == 0);
        DEMAND(archcaraway_set_resolve(&set, writer.bytes, writer.length, reply, sizeof reply,
                                       &size) == 0);
    }
    uint64_t count = archcaraway_set_boundaries(&set);
    double grown = (double)(resident() - before),
           reported = (double)archcaraway_set_bytes_held(&set);
    printf("%llu boundaries, %.0f bytes per boundary, of which the set reports %.0f\n",
           (unsigned long long)count, grown / (double)count, reported / (double)count);
}

static void replies(int64_t batches, int transactions, bool acknowledged) {
    size_t size;
    int kind;
    int64_t version;
    archcaraway_core core = ARCHCARAWAY_NONE;
    archcaraway_writer writer = archcaraway_writer_new(archcaraway_grow_malloc, NULL);
    DEMAND(archcaraway_core_new(1, ARCHCARAWAY_WINDOW, ARCHCARAWAY_LIMIT, &core) == 0);
    long before = resident();
    for (int64_t batch = 0; batch < batches; batch++) {
        archcaraway_batch_begin(&writer, batch - 1, batch, acknowledged ? batch - 1 : -1);
        for (int transaction = 0; transaction < transactions; transaction++)
            archcaraway_batch_transaction(&writer, 0, false);
        DEMAND(archcaraway_batch_end(&writer) == 0);
        DEMAND(archcaraway_core_admit(&core, 0, writer.bytes, writer.length) == 0);
        DEMAND(archcaraway_core_give(&core, 0, reply, sizeof reply, &size, &kind, &version) == 0);
    }
    printf("%.1f MB\n", (double)(resident() - before) / 1e6);
}

int main(int count, char **words) {
    if (count == 6 && strcmp(words[1], "boundaries") == 0)
        boundaries(strcmp(words[2], "rising") == 0, strcmp(words[3], "single") == 0,
                   strtoul(words[4], NULL, 10), atol(words[5]));
    else if (count >= 4 && strcmp(words[1], "replies") == 0)
        replies(atol(words[2]), atoi(words[3]), count == 5);
    else
        return 2;
    return 0;
}
