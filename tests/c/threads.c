// One call at a time, on any thread: threads use a set and a core in turn, and another one frees
// them.
//
//     threads FRAMES
//
// Each of eight threads takes its turn by a lock, makes the next frame, and gives it to both. The
// set's reply is compared with the core's.
#include <pthread.h>
#include <stdlib.h>

#include "chains.h"

enum { THREADS = 8 };

typedef struct {
    pthread_mutex_t lock;
    archcaraway_set set;
    archcaraway_core core;
    int64_t version, frames;
    size_t turns[THREADS], conflicts;
} Shared;

typedef struct {
    Shared *shared;
    unsigned number;
    pthread_t thread;
} Worker;

// A batch that reads what was written 1 to 16 batches ago, at a snapshot before or after it.
static void write_frame(archcaraway_writer *writer, const Shared *shared, Random *random) {
    uint8_t key[2] = {(uint8_t)below(random, 64), 'k'};
    int64_t back = (int64_t)below(random, 16);
    archcaraway_batch_begin(writer, shared->version - 1, shared->version, shared->version - 1);
    archcaraway_batch_transaction(writer, shared->version < back ? 0 : shared->version - back,
                                  false);
    archcaraway_batch_read_key(writer, key, sizeof key);
    archcaraway_batch_write_key(writer, key, sizeof key);
    DEMAND(archcaraway_batch_end(writer) == ARCHCARAWAY_OK);
}

static void give_frame(Shared *shared, unsigned proxy, const archcaraway_writer *writer) {
    uint8_t reply[64], answer[64];
    size_t length, answer_length;
    int kind;
    int64_t version;
    archcaraway_reply read;
    archcaraway_entry entry;
    DEMAND(archcaraway_set_resolve(&shared->set, writer->bytes, writer->length, reply, sizeof reply,
                                   &length) == ARCHCARAWAY_OK);
    DEMAND(archcaraway_core_admit(&shared->core, proxy, writer->bytes, writer->length) ==
           ARCHCARAWAY_OK);
    DEMAND(archcaraway_core_owed(&shared->core) == 1 &&
           archcaraway_core_stop(&shared->core) == ARCHCARAWAY_OK);
    DEMAND(archcaraway_core_give(&shared->core, proxy, answer, sizeof answer, &answer_length, &kind,
                                 &version) == ARCHCARAWAY_OK);
    DEMAND(kind == ARCHCARAWAY_REPLY && version == shared->version);
    DEMAND(length == answer_length && memcmp(reply, answer, length) == 0);
    DEMAND(archcaraway_reply_read(&read, reply, length) == ARCHCARAWAY_OK &&
           archcaraway_reply_next(&read, &entry));
    shared->conflicts += entry.verdict == ARCHCARAWAY_CONFLICT;
}

static void *work(void *argument) {
    Worker *worker = (Worker *)argument;
    Shared *shared = worker->shared;
    Random random = {worker->number};
    archcaraway_writer writer = archcaraway_writer_new(archcaraway_grow_malloc, NULL);
    for (bool more = true; more;) {
        DEMAND(pthread_mutex_lock(&shared->lock) == 0);
        more = shared->version < shared->frames &&
               shared->turns[worker->number] < (size_t)shared->frames / THREADS;
        if (more) {
            write_frame(&writer, shared, &random);
            give_frame(shared, worker->number, &writer);
            shared->version++;
            shared->turns[worker->number]++;
        }
        DEMAND(pthread_mutex_unlock(&shared->lock) == 0);
    }
    archcaraway_writer_free(&writer);
    return NULL;
}

static void *free_both(void *argument) {
    Shared *shared = (Shared *)argument;
    DEMAND(archcaraway_set_boundaries(&shared->set) > 1);
    archcaraway_set_free(&shared->set);
    archcaraway_core_free(&shared->core);
    return NULL;
}

int main(int count, char **words) {
    static Shared shared = {.lock = PTHREAD_MUTEX_INITIALIZER};
    Worker workers[THREADS];
    pthread_t last;
    DEMAND(count == 2);
    shared.frames = strtoll(words[1], NULL, 10);
    DEMAND(archcaraway_set_new(ARCHCARAWAY_WINDOW, ARCHCARAWAY_LIMIT, &shared.set) ==
           ARCHCARAWAY_OK);
    DEMAND(archcaraway_core_new(THREADS, ARCHCARAWAY_WINDOW, ARCHCARAWAY_LIMIT, &shared.core) ==
           ARCHCARAWAY_OK);
    for (unsigned i = 0; i < THREADS; i++) {
        workers[i] = (Worker){.shared = &shared, .number = i};
        DEMAND(pthread_create(&workers[i].thread, NULL, work, &workers[i]) == 0);
    }
    for (unsigned i = 0; i < THREADS; i++) DEMAND(pthread_join(workers[i].thread, NULL) == 0);
    DEMAND(shared.version == shared.frames);
    DEMAND(pthread_create(&last, NULL, free_both, &shared) == 0 && pthread_join(last, NULL) == 0);
    DEMAND(shared.set.at == NULL && shared.core.at == NULL && shared.conflicts > 0);
    printf("threads: %lld frames from %d threads, %zu conflicts; freed on another thread\n",
           (long long)shared.frames, THREADS, shared.conflicts);
    return 0;
}
