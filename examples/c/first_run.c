// The first run over a core: a chain of two batches from one proxy, and one line per reply.
#include <inttypes.h>
#include <stdio.h>

#include "archcaraway_frames.h"

static void print_reply(const uint8_t *frame, size_t length) {
    static const char *const words[] = {"conflict", "tooold", "committed"};
    archcaraway_reply reply;
    archcaraway_entry entry;
    if (archcaraway_reply_read(&reply, frame, length) != ARCHCARAWAY_OK) return;
    printf("0 %" PRId64 "%s", reply.version, reply.count == 0 ? " empty" : "");
    while (archcaraway_reply_next(&reply, &entry)) printf(" %s", words[entry.verdict]);
    printf("\n");
}

// Gives the core the batches -1>0, without transactions, and 0>100, whose transaction writes [a,b).
static int admit(archcaraway_core *core, archcaraway_writer *writer) {
    archcaraway_batch_begin(writer, -1, 0, -1);
    int status = archcaraway_batch_end(writer);
    if (!status) status = archcaraway_core_admit(core, 0, writer->bytes, writer->length);
    if (status) return status;
    archcaraway_batch_begin(writer, 0, 100, -1);
    archcaraway_batch_transaction(writer, 0, false);
    archcaraway_batch_write(writer, (const uint8_t *)"a", 1, (const uint8_t *)"b", 1);
    status = archcaraway_batch_end(writer);
    if (!status) status = archcaraway_core_admit(core, 0, writer->bytes, writer->length);
    return status ? status : archcaraway_core_finish(core);
}

static int print_answers(archcaraway_core *core) {
    int status = ARCHCARAWAY_OK;
    while (!status && archcaraway_core_owed(core) > 0) {
        uint8_t answer[64];
        size_t length;
        int kind;
        int64_t version;
        status = archcaraway_core_give(core, 0, answer, sizeof answer, &length, &kind, &version);
        if (kind == ARCHCARAWAY_REPLY) print_reply(answer, length);
        if (kind == ARCHCARAWAY_NEVER) printf("0 %" PRId64 " never\n", version);
        if (kind == ARCHCARAWAY_HELD) printf("0 %" PRId64 " held\n", version);
    }
    return status;
}

int main(void) {
    archcaraway_core core;
    archcaraway_writer writer = archcaraway_writer_new(archcaraway_grow_malloc, NULL);
    int status = archcaraway_core_new(1, ARCHCARAWAY_WINDOW, ARCHCARAWAY_LIMIT, &core);
    if (!status) status = admit(&core, &writer);
    if (!status) status = print_answers(&core);
    archcaraway_core_free(&core);
    archcaraway_writer_free(&writer);
    if (status) fprintf(stderr, "first_run: %s\n", archcaraway_status_text(status));
    return status != ARCHCARAWAY_OK;
}
