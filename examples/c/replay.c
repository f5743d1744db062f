// Replays recorded files, and prints what the program `replay` prints.
//
//     replay FILE..
//
// The file at index p, counted from 0, has the batches of proxy p.
#include <inttypes.h>
#include <stdio.h>

#include "archcaraway_frames.h"

// A file, and how far it was given to the core.
typedef struct {
    uint8_t *bytes;
    size_t length, at;
    int fault; // why its reading has ended, or OK
} Input;

// An answer to a proxy.
typedef struct {
    unsigned proxy;
    int kind;
    int64_t version;
    uint8_t *frame;
    size_t length, order;
} Answer;

typedef struct {
    Answer *items;
    size_t count, capacity;
} Answers;

static bool read_file(const char *path, Input *input) {
    FILE *file = fopen(path, "rb");
    long length;
    memset(input, 0, sizeof *input);
    if (file == NULL) return false;
    if (fseek(file, 0, SEEK_END) != 0 || (length = ftell(file)) < 0) return fclose(file) != 0;
    rewind(file);
    input->bytes = (uint8_t *)malloc((size_t)length + 1);
    if (input->bytes != NULL) input->length = fread(input->bytes, 1, (size_t)length, file);
    return fclose(file) == 0 && input->bytes != NULL && input->length == (size_t)length;
}

// Gives the core the next batch of a file, if it has one. Returns the stop, if the core meets one.
static int admit_next(archcaraway_core *core, unsigned proxy, Input *input) {
    const uint8_t *bytes = input->bytes + input->at;
    size_t frame;
    input->fault = archcaraway_frame_length(bytes, input->length - input->at, &frame);
    if (!input->fault) input->fault = archcaraway_core_admit(core, proxy, bytes, frame);
    input->at += frame;
    return archcaraway_core_stop(core);
}

// Takes one batch of each file in turn, to the end of all files, to their faults or to a stop.
static int admit_all(archcaraway_core *core, Input *inputs, unsigned count) {
    int stop = ARCHCARAWAY_OK;
    bool more = true;
    while (more && !stop) {
        more = false;
        for (unsigned proxy = 0; proxy < count && !stop; proxy++) {
            Input *input = &inputs[proxy];
            if (input->fault || input->at == input->length) continue;
            stop = admit_next(core, proxy, input);
            more = true;
        }
    }
    return stop ? stop : archcaraway_core_finish(core);
}

static bool keep(Answers *answers, Answer answer) {
    if (answers->count == answers->capacity) {
        size_t capacity = 2 * answers->capacity + 16;
        Answer *items = (Answer *)realloc(answers->items, capacity * sizeof *items);
        if (items == NULL) return false;
        answers->items = items;
        answers->capacity = capacity;
    }
    answer.order = answers->count;
    answers->items[answers->count++] = answer;
    return true;
}

// Takes all answers that the core owes a proxy.
static int take_answers(archcaraway_core *core, unsigned proxy, Answers *answers) {
    for (;;) {
        Answer answer = {proxy, ARCHCARAWAY_NOTHING, -1, NULL, 0, 0};
        int status = archcaraway_core_give(core, proxy, NULL, 0, &answer.length, &answer.kind,
                                           &answer.version);
        if (status == ARCHCARAWAY_BUFFER) {
            answer.frame = (uint8_t *)malloc(answer.length);
            if (answer.frame == NULL) return ARCHCARAWAY_MEMORY;
            status = archcaraway_core_give(core, proxy, answer.frame, answer.length,
                                           &answer.length, &answer.kind, &answer.version);
        }
        if (status || answer.kind == ARCHCARAWAY_NOTHING) return status;
        if (!keep(answers, answer)) return ARCHCARAWAY_MEMORY;
    }
}

// By proxy, then version, then arrival.
static int compare(const void *one, const void *other) {
    const Answer *a = (const Answer *)one, *b = (const Answer *)other;
    if (a->proxy != b->proxy) return a->proxy < b->proxy ? -1 : 1;
    if (a->version != b->version) return a->version < b->version ? -1 : 1;
    return a->order < b->order ? -1 : 1;
}

static void print_entry(const archcaraway_entry *entry) {
    static const char *const words[] = {"conflict", "tooold", "committed"};
    printf(" %s", words[entry->verdict]);
    for (unsigned i = 0; i < entry->count; i++) {
        printf("%c%u", i == 0 ? ':' : ',', archcaraway_entry_place(entry, i));
    }
}

static void print_answer(const Answer *answer) {
    archcaraway_reply reply;
    archcaraway_entry entry;
    printf("%u %" PRId64, answer->proxy, answer->version);
    if (answer->kind == ARCHCARAWAY_NEVER) printf(" never");
    if (answer->kind == ARCHCARAWAY_HELD) printf(" held");
    if (answer->kind == ARCHCARAWAY_REPLY) {
        if (archcaraway_reply_read(&reply, answer->frame, answer->length)) return;
        if (reply.count == 0) printf(" empty");
        while (archcaraway_reply_next(&reply, &entry)) print_entry(&entry);
    }
    printf("\n");
}

// Prints the part of a status that `replay` prints.
static void print_status(const char *before, int status) {
    const char *text = archcaraway_status_text(status);
    fprintf(stderr, "replay: %s%.*s\n", before, (int)strcspn(text, ":"), text);
}

static int run(archcaraway_core *core, Input *inputs, unsigned count) {
    Answers answers = {NULL, 0, 0};
    int stop = admit_all(core, inputs, count), status = ARCHCARAWAY_OK;
    bool failed = stop != ARCHCARAWAY_OK;
    for (unsigned proxy = 0; proxy < count && !status; proxy++) {
        status = take_answers(core, proxy, &answers);
    }
    if (answers.count > 0) qsort(answers.items, answers.count, sizeof(Answer), compare);
    for (size_t i = 0; i < answers.count; i++) {
        print_answer(&answers.items[i]);
        free(answers.items[i].frame);
    }
    free(answers.items);
    for (unsigned proxy = 0; proxy < count; proxy++) {
        char before[32];
        if (!inputs[proxy].fault || inputs[proxy].fault == stop) continue;
        snprintf(before, sizeof before, "proxy %u: ", proxy);
        print_status(before, inputs[proxy].fault);
        failed = true;
    }
    if (stop) print_status("", stop);
    if (status) print_status("", status);
    return failed || status;
}

int main(int count, char **words) {
    static Input inputs[ARCHCARAWAY_MAX_PROXIES];
    unsigned files = (unsigned)count - 1;
    archcaraway_core core;
    if (files < 1 || files > ARCHCARAWAY_MAX_PROXIES) {
        fprintf(stderr, "usage: replay FILE.., 1 to %d of them\n", ARCHCARAWAY_MAX_PROXIES);
        return 2;
    }
    for (unsigned i = 0; i < files; i++) {
        if (read_file(words[i + 1], &inputs[i])) continue;
        fprintf(stderr, "replay: %s can't be read\n", words[i + 1]);
        return 1;
    }
    int status = archcaraway_core_new(files, ARCHCARAWAY_WINDOW, ARCHCARAWAY_LIMIT, &core);
    if (status) {
        print_status("", status);
    } else {
        status = run(&core, inputs, files);
    }
    archcaraway_core_free(&core);
    for (unsigned i = 0; i < files; i++) free(inputs[i].bytes);
    return status != 0;
}
