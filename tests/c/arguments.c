// What is refused before a call does anything: null, numbers outside their ranges, handles that
// aren't there, bytes after a frame.
#include <stdlib.h>

#include "chains.h"

static uint8_t EMPTY_BATCH[31];

// The batch -1>0 without transactions.
static void make_empty_batch(void) {
    archcaraway_writer writer = archcaraway_writer_new(archcaraway_grow_malloc, NULL);
    archcaraway_batch_begin(&writer, -1, 0, -1);
    DEMAND(archcaraway_batch_end(&writer) == ARCHCARAWAY_OK && writer.length == sizeof EMPTY_BATCH);
    memcpy(EMPTY_BATCH, writer.bytes, writer.length);
    archcaraway_writer_free(&writer);
}

static void numbers(void) {
    static const struct {
        uint32_t proxies;
        int64_t window;
        uint64_t limit;
        int status;
    } rows[] = {
        {1, 1, 1, ARCHCARAWAY_OK},
        {64, ARCHCARAWAY_MAX_WINDOW, ARCHCARAWAY_MAX_LIMIT, ARCHCARAWAY_OK},
        {0, 1, 1, ARCHCARAWAY_ARGUMENT},
        {65, 1, 1, ARCHCARAWAY_ARGUMENT},
        {UINT32_MAX, 1, 1, ARCHCARAWAY_ARGUMENT},
        {1, 0, 1, ARCHCARAWAY_ARGUMENT},
        {1, -1, 1, ARCHCARAWAY_ARGUMENT},
        {1, INT64_MIN, 1, ARCHCARAWAY_ARGUMENT},
        {1, ARCHCARAWAY_MAX_WINDOW + 1, 1, ARCHCARAWAY_ARGUMENT},
        {1, INT64_MAX, 1, ARCHCARAWAY_ARGUMENT},
        {1, 1, 0, ARCHCARAWAY_ARGUMENT},
        {1, 1, ARCHCARAWAY_MAX_LIMIT + 1, ARCHCARAWAY_ARGUMENT},
        {1, 1, UINT64_MAX, ARCHCARAWAY_ARGUMENT},
    };
    for (size_t i = 0; i < sizeof rows / sizeof rows[0]; i++) {
        // A call that fails leaves handles of zeros, whatever they were.
        int other;
        archcaraway_core core = {&other};
        archcaraway_set set = ARCHCARAWAY_NONE;
        DEMAND(archcaraway_core_new(rows[i].proxies, rows[i].window, rows[i].limit, &core) ==
               rows[i].status);
        DEMAND((core.at != NULL) == (rows[i].status == ARCHCARAWAY_OK));
        if (rows[i].proxies == 1) {
            set.at = &other;
            DEMAND(archcaraway_set_new(rows[i].window, rows[i].limit, &set) == rows[i].status);
            DEMAND((set.at != NULL) == (rows[i].status == ARCHCARAWAY_OK));
        }
        archcaraway_core_free(&core);
        archcaraway_core_free(&core);
        archcaraway_set_free(&set);
        archcaraway_set_free(&set);
    }
    DEMAND(archcaraway_core_new(1, 1, 1, NULL) == ARCHCARAWAY_ARGUMENT);
    DEMAND(archcaraway_set_new(1, 1, NULL) == ARCHCARAWAY_ARGUMENT);
    archcaraway_core_free(NULL);
    archcaraway_set_free(NULL);
}

static void sets(void) {
    archcaraway_set none = ARCHCARAWAY_NONE, set = ARCHCARAWAY_NONE;
    uint8_t reply[64];
    size_t length = 99;
    DEMAND(archcaraway_set_new(10, 10, &set) == ARCHCARAWAY_OK);
    DEMAND(archcaraway_set_boundaries(&set) == 1);
    DEMAND(archcaraway_set_boundaries(&none) == 0 && archcaraway_set_boundaries(NULL) == 0);
    DEMAND(archcaraway_set_resolve(NULL, EMPTY_BATCH, 31, reply, 64, &length) ==
               ARCHCARAWAY_ARGUMENT &&
           length == 0);
    DEMAND(archcaraway_set_resolve(&none, EMPTY_BATCH, 31, reply, 64, &length) ==
           ARCHCARAWAY_ARGUMENT);
    DEMAND(archcaraway_set_resolve(&set, NULL, 31, reply, 64, &length) == ARCHCARAWAY_ARGUMENT);
    DEMAND(archcaraway_set_resolve(&set, EMPTY_BATCH, 31, NULL, 64, &length) ==
           ARCHCARAWAY_ARGUMENT);
    DEMAND(archcaraway_set_resolve(&set, EMPTY_BATCH, 31, reply, 64, NULL) == ARCHCARAWAY_ARGUMENT);
    DEMAND(archcaraway_set_resolve(&set, EMPTY_BATCH, SIZE_MAX, reply, 64, &length) ==
           ARCHCARAWAY_ARGUMENT);
    DEMAND(archcaraway_set_resolve(&set, NULL, 0, reply, 64, &length) == ARCHCARAWAY_FRAME_SHORT &&
           length == 0);
    DEMAND(archcaraway_set_resolve(&set, EMPTY_BATCH, 30, reply, 64, &length) ==
           ARCHCARAWAY_FRAME_SHORT);
    DEMAND(archcaraway_set_resolve(&set, EMPTY_BATCH, 31, reply, 14, &length) ==
               ARCHCARAWAY_BUFFER &&
           length == 15);
    DEMAND(archcaraway_set_resolve(&set, EMPTY_BATCH, 31, NULL, 0, &length) == ARCHCARAWAY_BUFFER &&
           length == 15);
    uint8_t behind[32] = {0};
    memcpy(behind, EMPTY_BATCH, 31);
    DEMAND(archcaraway_set_resolve(&set, behind, 32, reply, 64, &length) == ARCHCARAWAY_BEHIND &&
           length == 0);
    DEMAND(archcaraway_set_resolve(&set, EMPTY_BATCH, 31, reply, 15, &length) == ARCHCARAWAY_OK &&
           length == 15);
    DEMAND(archcaraway_set_resolve(&set, EMPTY_BATCH, 31, reply, 15, &length) ==
               ARCHCARAWAY_VERSION_LATE &&
           length == 0);
    archcaraway_set_free(&set);
}

static void cores(void) {
    archcaraway_core none = ARCHCARAWAY_NONE, core = ARCHCARAWAY_NONE;
    uint8_t answer[64];
    size_t length = 99;
    int kind = 99;
    int64_t version = 99;
    DEMAND(archcaraway_core_new(2, 10, 10, &core) == ARCHCARAWAY_OK);
    DEMAND(archcaraway_core_admit(NULL, 0, EMPTY_BATCH, 31) == ARCHCARAWAY_ARGUMENT);
    DEMAND(archcaraway_core_admit(&none, 0, EMPTY_BATCH, 31) == ARCHCARAWAY_ARGUMENT);
    DEMAND(archcaraway_core_admit(&core, 0, NULL, 31) == ARCHCARAWAY_ARGUMENT);
    DEMAND(archcaraway_core_admit(&core, 2, EMPTY_BATCH, 31) == ARCHCARAWAY_ARGUMENT);
    DEMAND(archcaraway_core_admit(&core, UINT32_MAX, EMPTY_BATCH, 31) == ARCHCARAWAY_ARGUMENT);
    DEMAND(archcaraway_core_admit(&core, 0, NULL, 0) == ARCHCARAWAY_FRAME_SHORT);
    DEMAND(archcaraway_core_finish(NULL) == ARCHCARAWAY_ARGUMENT &&
           archcaraway_core_finish(&none) == ARCHCARAWAY_ARGUMENT);
    DEMAND(archcaraway_core_owed(NULL) == 0 && archcaraway_core_owed(&none) == 0 &&
           archcaraway_core_owed(&core) == 0);
    DEMAND(archcaraway_core_stop(NULL) == ARCHCARAWAY_ARGUMENT &&
           archcaraway_core_stop(&core) == ARCHCARAWAY_OK);
    DEMAND(archcaraway_core_give(NULL, 0, answer, 64, &length, &kind, &version) ==
           ARCHCARAWAY_ARGUMENT);
    DEMAND(length == 0 && kind == ARCHCARAWAY_NOTHING && version == -1);
    DEMAND(archcaraway_core_give(&core, 2, answer, 64, &length, &kind, &version) ==
           ARCHCARAWAY_ARGUMENT);
    DEMAND(archcaraway_core_give(&core, 0, NULL, 64, &length, &kind, &version) ==
           ARCHCARAWAY_ARGUMENT);
    DEMAND(archcaraway_core_give(&core, 0, answer, 64, NULL, &kind, &version) ==
           ARCHCARAWAY_ARGUMENT);
    DEMAND(archcaraway_core_give(&core, 0, answer, 64, &length, NULL, &version) ==
           ARCHCARAWAY_ARGUMENT);
    DEMAND(archcaraway_core_give(&core, 0, answer, 64, &length, &kind, NULL) ==
           ARCHCARAWAY_ARGUMENT);
    DEMAND(archcaraway_core_give(&core, 0, answer, 64, &length, &kind, &version) == ARCHCARAWAY_OK);
    DEMAND(kind == ARCHCARAWAY_NOTHING && version == -1 && length == 0);
    DEMAND(archcaraway_core_admit(&core, 1, EMPTY_BATCH, 31) == ARCHCARAWAY_OK &&
           archcaraway_core_owed(&core) == 1);
    DEMAND(archcaraway_core_give(&core, 1, NULL, 0, &length, &kind, &version) ==
               ARCHCARAWAY_BUFFER &&
           length == 15);
    DEMAND(kind == ARCHCARAWAY_NOTHING && archcaraway_core_owed(&core) == 1);
    DEMAND(archcaraway_core_give(&core, 1, answer, 15, &length, &kind, &version) ==
               ARCHCARAWAY_OK &&
           length == 15);
    DEMAND(kind == ARCHCARAWAY_REPLY && version == 0 && archcaraway_core_owed(&core) == 0);
    archcaraway_core_free(&core);
}

static void texts(void) {
    size_t known = 0;
    for (int status = -10; status < 300; status++) {
        const char *text = archcaraway_status_text(status);
        DEMAND(text != NULL && text == archcaraway_text(status));
        known += strcmp(text, "unknown status") != 0;
    }
    DEMAND(known == 22);
    DEMAND(archcaraway_version() == ARCHCARAWAY_VERSION);
}

int main(void) {
    make_empty_batch();
    numbers();
    sets();
    cores();
    texts();
    printf("arguments: refused as the header says\n");
    return 0;
}
