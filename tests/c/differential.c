// Drives random chains through the library, and through the program `replay`, and compares every
// line.
//
//     differential CHAINS SEED [REPLAY FOLDER]
//
// Without the program it drives the library alone. FOLDER is one for the files that the program
// reads and writes. A batch is also given with buffers that are too small, and to a set beside the
// core.
#include <stdlib.h>

#include "chains.h"

// The status and the text of the program's line for it.
static const char *stop_line(int stop) {
    switch (stop) {
    case ARCHCARAWAY_OK: return "";
    case ARCHCARAWAY_MEMORY: return "replay: stop 1 Memory\n";
    case ARCHCARAWAY_GATE_FULL: return "replay: stop 2 GateFull\n";
    case ARCHCARAWAY_ARENA_FULL: return "replay: stop 3 ArenaFull\n";
    default: return "another stop";
    }
}

// Takes an answer, first with a buffer that is too small for a reply, and says whether one was
// owed.
static bool take_answer(archcaraway_core *core, unsigned proxy, Answers *answers) {
    uint64_t owed = archcaraway_core_owed(core);
    uint8_t small[8];
    size_t length = 99;
    Answer answer = {proxy, -1, -2, {NULL, 0}};
    int status = archcaraway_core_give(core, proxy, small, sizeof small, &length, &answer.kind,
                                       &answer.version);
    if (status == ARCHCARAWAY_BUFFER) {
        DEMAND(length >= 15 && answer.kind == ARCHCARAWAY_NOTHING && answer.version == -1);
        DEMAND(archcaraway_core_owed(core) == owed);
        size_t needed = length;
        uint8_t *bytes = (uint8_t *)demand_memory(needed);
        status = archcaraway_core_give(core, proxy, bytes, needed - 1, &length, &answer.kind,
                                       &answer.version);
        DEMAND(status == ARCHCARAWAY_BUFFER && length == needed);
        status = archcaraway_core_give(core, proxy, bytes, needed, &length, &answer.kind,
                                       &answer.version);
        DEMAND(status == ARCHCARAWAY_OK && length == needed && answer.kind == ARCHCARAWAY_REPLY);
        answer.frame = (Bytes){bytes, needed};
    }
    DEMAND(status == ARCHCARAWAY_OK && length == answer.frame.length);
    if (answer.kind == ARCHCARAWAY_NOTHING) {
        DEMAND(answer.version == -1 && archcaraway_core_owed(core) == owed);
        return false;
    }
    DEMAND(archcaraway_core_owed(core) == owed - 1);
    keep_answer(answers, answer);
    return true;
}

// Runs the chain over a core, and answers the stop that it met.
static int run_core(Random *random, const Chain *chain, Answers *answers) {
    archcaraway_core core = ARCHCARAWAY_NONE;
    DEMAND(archcaraway_core_new(chain->proxies, chain->window, chain->limit, &core) ==
           ARCHCARAWAY_OK);
    int status = ARCHCARAWAY_OK;
    for (size_t i = 0; i < chain->sent_length && status == ARCHCARAWAY_OK; i++) {
        const Sent *sent = &chain->sent[i];
        status = archcaraway_core_admit(&core, sent->proxy, sent->frame.bytes, sent->frame.length);
        while (one_in(random, 2) &&
               take_answer(&core, (unsigned)below(random, chain->proxies), answers)) {
        }
    }
    if (status == ARCHCARAWAY_OK) status = archcaraway_core_finish(&core);
    DEMAND(archcaraway_core_stop(&core) == status);
    if (status != ARCHCARAWAY_OK) {
        DEMAND(archcaraway_core_finish(&core) == status);
        DEMAND(archcaraway_core_admit(&core, 0, chain->sent[0].frame.bytes,
                                      chain->sent[0].frame.length) == status);
    }
    for (unsigned proxy = 0; proxy < chain->proxies; proxy++) {
        while (take_answer(&core, proxy, answers)) {
        }
    }
    DEMAND(archcaraway_core_owed(&core) == 0);
    DEMAND(archcaraway_core_admit(&core, chain->proxies, NULL, 0) == ARCHCARAWAY_ARGUMENT);
    archcaraway_core_free(&core);
    DEMAND(core.at == NULL);
    return status;
}

static const Answer *answer_at(const Answers *answers, int64_t version) {
    for (size_t i = 0; i < answers->length; i++) {
        if (answers->items[i].version == version && answers->items[i].kind == ARCHCARAWAY_REPLY)
            return &answers->items[i];
    }
    return NULL;
}

// Gives a set each batch of the chain that the core has replied to, and compares the replies.
static size_t run_set(Random *random, const Chain *chain, const Answers *answers) {
    archcaraway_set set = ARCHCARAWAY_NONE;
    size_t compared = 0;
    DEMAND(archcaraway_set_new(chain->window, chain->limit, &set) == ARCHCARAWAY_OK);
    for (size_t i = 0; i < chain->length; i++) {
        const Batch *batch = &chain->chain[i];
        const Answer *answer = answer_at(answers, batch->version);
        if (answer == NULL) break;
        Bytes frame = any_frame(random, batch);
        size_t longest = longest_reply(batch), length = 99;
        uint64_t boundaries = archcaraway_set_boundaries(&set);
        uint8_t *reply = (uint8_t *)demand_memory(longest);
        int status =
            archcaraway_set_resolve(&set, frame.bytes, frame.length, reply, longest - 1, &length);
        DEMAND(status == ARCHCARAWAY_BUFFER && length == longest);
        DEMAND(archcaraway_set_boundaries(&set) == boundaries);
        status = archcaraway_set_resolve(&set, frame.bytes, frame.length, reply, longest, &length);
        DEMAND(status == ARCHCARAWAY_OK && length == answer->frame.length);
        DEMAND(memcmp(reply, answer->frame.bytes, length) == 0);
        DEMAND(archcaraway_set_boundaries(&set) <= chain->limit);
        status = archcaraway_set_resolve(&set, frame.bytes, frame.length, reply, longest, &length);
        DEMAND(status == ARCHCARAWAY_VERSION_LATE && length == 0);
        status =
            archcaraway_set_resolve(&set, frame.bytes, frame.length - 1, reply, longest, &length);
        DEMAND(status == ARCHCARAWAY_FRAME_SHORT && length == 0);
        free(reply);
        free(frame.bytes);
        compared++;
    }
    archcaraway_set_free(&set);
    return compared;
}

static void print_answers(FILE *out, const Answers *answers) {
    for (size_t i = 0; i < answers->length; i++) {
        const Answer *answer = &answers->items[i];
        fprintf(out, "%u %" PRId64 " ", answer->proxy, answer->version);
        if (answer->kind == ARCHCARAWAY_NEVER) fprintf(out, "never");
        if (answer->kind == ARCHCARAWAY_HELD) fprintf(out, "held");
        for (size_t k = 0; k < answer->frame.length; k++)
            fprintf(out, "%02x", answer->frame.bytes[k]);
        fprintf(out, "\n");
    }
}

static FILE *open_in(const char *folder, const char *name, unsigned number, const char *mode) {
    char path[1000];
    snprintf(path, sizeof path, "%s/%s%u", folder, name, number);
    FILE *file = fopen(path, mode);
    DEMAND(file != NULL);
    return file;
}

static Bytes read_file(FILE *file) {
    DEMAND(fseek(file, 0, SEEK_END) == 0);
    long length = ftell(file);
    DEMAND(length >= 0);
    rewind(file);
    Bytes bytes = {(uint8_t *)demand_memory((size_t)length), (size_t)length};
    DEMAND(fread(bytes.bytes, 1, bytes.length, file) == bytes.length);
    fclose(file);
    return bytes;
}

static void demand_same(FILE *file, FILE *other, const char *what, size_t number,
                        const char *kind) {
    Bytes a = read_file(file), b = read_file(other);
    if (a.length != b.length || memcmp(a.bytes, b.bytes, a.length) != 0) {
        fprintf(stderr, "chain %zu (%s): %s differs from what the library says\n", number, kind,
                what);
        exit(1);
    }
    free(a.bytes);
    free(b.bytes);
}

// Runs the program on the files of the proxies, and compares what it prints with these answers.
static void compare(const char *program, const char *folder, const Chain *chain,
                    const Answers *answers, int stop, size_t number) {
    char command[16384];
    int used = snprintf(command, sizeof command,
                        "%s --frames --capacity %u --window %" PRId64 " --limit %" PRIu64, program,
                        1 + (unsigned)(number % 16), chain->window, chain->limit);
    for (unsigned proxy = 0; proxy < chain->proxies; proxy++) {
        FILE *file = open_in(folder, "proxy", proxy, "wb");
        for (size_t i = 0; i < chain->sent_length; i++) {
            const Sent *sent = &chain->sent[i];
            if (sent->proxy == proxy)
                DEMAND(fwrite(sent->frame.bytes, 1, sent->frame.length, file) ==
                       sent->frame.length);
        }
        DEMAND(fclose(file) == 0);
        used +=
            snprintf(command + used, sizeof command - (size_t)used, " %s/proxy%u", folder, proxy);
    }
    used += snprintf(command + used, sizeof command - (size_t)used, " > %s/out0 2> %s/error0",
                     folder, folder);
    DEMAND((size_t)used < sizeof command);
    int status = system(command);
    DEMAND((status == 0) == (stop == ARCHCARAWAY_OK));
    FILE *lines = open_in(folder, "lines", 0, "w+b");
    print_answers(lines, answers);
    demand_same(lines, open_in(folder, "out", 0, "rb"), "the output", number, chain->kind);
    lines = open_in(folder, "lines", 0, "w+b");
    fputs(stop_line(stop), lines);
    demand_same(lines, open_in(folder, "error", 0, "rb"), "the error", number, chain->kind);
}

int main(int count, char **words) {
    DEMAND(count == 3 || count == 5);
    size_t chains = (size_t)strtoul(words[1], NULL, 10);
    Random random = {strtoull(words[2], NULL, 10)};
    size_t batches = 0, lines = 0, resolved = 0, stops[4] = {0, 0, 0, 0}, kinds[4] = {0, 0, 0, 0};
    for (size_t number = 0; number < chains; number++) {
        Chain chain = random_chain(&random);
        Answers answers = {NULL, 0, 0};
        int stop = run_core(&random, &chain, &answers);
        DEMAND(stop >= 0 && stop < 4);
        if (chain.proxies > 1) resolved += run_set(&random, &chain, &answers);
        sort_answers(&answers);
        if (count == 5) compare(words[3], words[4], &chain, &answers, stop, number);
        batches += chain.sent_length;
        lines += answers.length;
        stops[stop]++;
        for (size_t i = 0; i < answers.length; i++) kinds[answers.items[i].kind]++;
        free_answers(&answers);
        free_chain(&chain);
    }
    printf("differential: %zu chains, %zu batches; %zu replies, %zu never, %zu held; "
           "stops: %zu GateFull, %zu ArenaFull; %zu batches by a set too; %zu lines %s\n",
           chains, batches, kinds[1], kinds[2], kinds[3], stops[2], stops[3], resolved, lines,
           count == 5 ? "as the program prints them" : "not compared");
    return 0;
}
