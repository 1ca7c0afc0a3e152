/* Preloaded by tests/no_memory.py: of the calls that ask for memory the one with the number FAIL_ALLOC, counted from 1, finds none. How
   many calls there were is written to standard error at the end. */
#include <stdio.h>
#include <stdlib.h>

void *__libc_malloc(size_t size);
void *__libc_calloc(size_t count, size_t size);
void *__libc_realloc(void *block, size_t size);

static long calls, fails;

__attribute__((constructor)) static void begin(void) {
    const char *word = getenv("FAIL_ALLOC");
    fails = word ? atol(word) : 0;
    calls = 0;
}

__attribute__((destructor)) static void end(void) {
    long count = calls;
    dprintf(2, "%ld\n", count);
}

static int is_refused(void) {
    calls += 1;
    return calls == fails;
}

void *malloc(size_t size) {
    return is_refused() ? NULL : __libc_malloc(size);
}

void *calloc(size_t count, size_t size) {
    return is_refused() ? NULL : __libc_calloc(count, size);
}

void *realloc(void *block, size_t size) {
    return is_refused() ? NULL : __libc_realloc(block, size);
}
