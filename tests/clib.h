/* What the C programs of tests/clib.sh share. */
#ifndef CLIB_H
#define CLIB_H
#include "segdag.h"
#include <stdio.h>
#include <string.h>

/* How many wishes of this program didn't come true. */
static int failures;

#define WANTS(condition)                                           \
    do {                                                           \
        if (!(condition)) {                                        \
            fprintf(stderr, "%s: line %d: %s\n", __FILE__, __LINE__, #condition); \
            failures += 1;                                         \
        }                                                          \
    } while (0)

/* Says why something ended, if it failed, and gives the status with which the program ends so. */
static inline int stopped(const char *what, segdag_code code) {
    static const int statuses[] = {[SEGDAG_DISK] = 3, [SEGDAG_NO_LOG] = 4, [SEGDAG_REPLY] = 6, [SEGDAG_MEMORY] = 7, [SEGDAG_NOT_OPENED] = 9, [SEGDAG_LOCKED] = 16};
    if (code == SEGDAG_OK)
        return 0;
    fprintf(stderr, "%s: %s\n", what, segdag_last_error()->text);
    return (size_t)code < sizeof statuses / sizeof *statuses && statuses[code] ? statuses[code] : 100 + (int)code;
}

/* The log at this path with room for so many ids of mirrors, made where there is none. */
static inline segdag_code open_log(const char *path, uint32_t cache, segdag_store **store) {
    segdag_open_options options = SEGDAG_OPEN_OPTIONS_INIT;
    options.flags = SEGDAG_OPEN_CREATE;
    options.cache = cache;
    return segdag_store_open(path, &options, store);
}

static inline segdag_code follow_log(const char *path, uint32_t cache, segdag_store **store) {
    segdag_open_options options = SEGDAG_OPEN_OPTIONS_INIT;
    options.flags = SEGDAG_OPEN_FOLLOW;
    options.cache = cache;
    return segdag_store_open(path, &options, store);
}

/* Closes it, if it is open, and makes *store NULL. */
static inline segdag_code close_log(segdag_store **store) {
    segdag_code code = *store ? SEGDAG_OK : SEGDAG_CLOSED;
    segdag_store_close(*store);
    *store = NULL;
    return code;
}

static inline segdag_code clone_log(segdag_store *store, unsigned session, uint64_t *master) {
    segdag_sizes sizes = SEGDAG_SIZES_INIT;
    segdag_code code = segdag_session_clone(store, session, &sizes);
    *master = sizes.master;
    return code;
}

/* The id of the row with this number: its bytes are spread, so that numbers and ids have different orders. */
static inline void name_of(uint64_t number, segdag_id *name) {
    uint64_t spread = number * 0x9e3779b97f4a7c15u;
    memset(name, 7, sizeof *name);
    for (int i = 0; i < 8; i++) {
        name->id[i] = (uint8_t)(spread >> (8 * i));
        name->id[12 + i] = (uint8_t)(number >> (8 * i));
    }
}

static inline bool is_same(const segdag_id *a, const segdag_id *b) {
    return !memcmp(a, b, sizeof *a);
}

/* Adds the row with this number: a child of the one before, and of an earlier one where the number ends in 9. */
static inline segdag_code add_row(segdag_store *store, uint64_t number) {
    segdag_id name, parents[2];
    uint64_t id;
    name_of(number, &name);
    name_of(number - 1, &parents[0]);
    name_of(number / 2, &parents[1]);
    return segdag_commit_add(store, 0, &name, parents, number == 0 ? 0 : number % 10 == 9 ? 2 : 1, &id);
}

static inline bool is_reply(segdag_store *store, const char *line, const char *wanted) {
    segdag_text reply = {0};
    bool is = segdag_store_line(store, line, strlen(line), &reply) == SEGDAG_OK && !strcmp(reply.bytes, wanted) && reply.size == strlen(wanted);
    segdag_text_free(&reply);
    return is;
}

#endif
