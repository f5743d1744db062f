// Counts what the library allocates, and refuses one call. Linked with --wrap for malloc, realloc
// and free.
#ifndef REFUSING_H
#define REFUSING_H

#include <malloc.h>
#include <stdbool.h>
#include <stddef.h>

void *__real_malloc(size_t size);
void *__real_realloc(void *at, size_t size);
void __real_free(void *at);

// Calls of the library are counted, and the pieces and bytes that it holds, and one call is
// refused.
static bool inside;
static size_t calls, refuse_at;
static long held, bytes_held;

static bool is_refused(void) { return inside && ++calls == refuse_at; }

void *__wrap_malloc(size_t size) {
    if (is_refused()) return NULL;
    void *at = __real_malloc(size);
    if (inside && at != NULL) {
        held++;
        bytes_held += (long)malloc_usable_size(at);
    }
    return at;
}

void *__wrap_realloc(void *old, size_t size) {
    if (is_refused()) return NULL;
    const size_t before = malloc_usable_size(old);
    void *at = __real_realloc(old, size);
    if (inside && at != NULL) {
        held += old == NULL;
        bytes_held += (long)malloc_usable_size(at) - (long)before;
    }
    return at;
}

void __wrap_free(void *at) {
    if (inside && at != NULL) {
        held--;
        bytes_held -= (long)malloc_usable_size(at);
    }
    __real_free(at);
}

// Counts from here on to `leave`, which hands the status on.
static void enter(void) { inside = true; }

static int leave(int status) {
    inside = false;
    return status;
}

// Makes a call of the library.
#define LIBRARY(call) (enter(), leave(call))

#endif
