/* Typed calls that change what is stored: calls of the core, for which no text is made. A refusal is asked once more as a line of the command
   language, for its own words; what that answers counts, since mirrors may answer by then. */
#include "store.h"
#include <stdio.h>
#include <stdlib.h>
#include <string.h>

/* How many bytes an id has as text. */
#define HEX (2 * SEGDAG_ID_SIZE)

static const uint8_t nothing = 0;

/* A change: its word, and the ids that it is told. */
typedef struct change {
    enum { FLUSH, STRIP, CLONE, PULL } kind;
    const segdag_id *ids;
    size_t count;
} change;

static const char *const words[] = {[FLUSH] = "flush", [STRIP] = "strip", [CLONE] = "clone", [PULL] = "pull"};

/* ---- as a line */

static char *put_id(char *at, const segdag_id *id) {
    static const char digits[] = "0123456789abcdef";
    *at++ = ' ';
    for (int i = 0; i < SEGDAG_ID_SIZE; i++) {
        *at++ = digits[id->id[i] >> 4];
        *at++ = digits[id->id[i] & 15];
    }
    return at;
}

/* The numbers of a reply behind `ok` and a word: what is in master, and outside of it where that is told. */
static void read_sizes(const char *reply, segdag_sizes *sizes) {
    uint64_t *numbers[] = {&sizes->master, &sizes->others};
    sizes->others = 0;
    for (int i = 0; i < 2 && *(reply += strcspn(reply, "0123456789")); i++) {
        char *end;
        *numbers[i] = strtoull(reply, &end, 10);
        reply = end;
    }
}

/* Answers the session's line of this word and these ids. */
static segdag_code answer(segdag_store *store, unsigned session, const change *what, segdag_sizes *sizes) {
    char line[32 + SEGDAG_MOST_HEADS * (HEX + 1)];
    char *at = line + snprintf(line, 32, "%u %s", session, words[what->kind]);
    for (size_t i = 0; i < what->count; i++)
        at = put_id(at, &what->ids[i]);
    segdag_code code = store_line(store, line, (size_t)(at - line), &store->reply);
    if (code)
        return code;
    error_reply(store->reply.bytes);
    code = error_of_reply(store->reply.bytes);
    if (code == SEGDAG_OK)
        read_sizes(store->reply.bytes, sizes);
    return code;
}

/* ---- as a call of the core */

static segdag_code make(segdag_store *store, uint8_t session, const change *what, segdag_sizes *sizes) {
    const uint8_t *first = what->count ? what->ids[0].id : &nothing;
    size_t size = what->count * sizeof *what->ids;
    switch (what->kind) {
        case FLUSH:
            return segdag_core_code(segdag_core_flush(&store->core, session, first, size, &sizes->master, &sizes->others));
        case STRIP:
            return segdag_core_code(segdag_core_strip(&store->core, session, first, size, &sizes->master, &sizes->others));
        case CLONE:
            return segdag_core_code(segdag_core_clone(&store->core, session, &sizes->master, &sizes->others));
        default:
            return segdag_core_code(segdag_core_pull(&store->core, session, &sizes->master, &sizes->others));
    }
}

/* Makes the change as the line of its word would be answered: what is done before a line, and behind it, is done. */
static segdag_code settle(segdag_store *store, unsigned session, const change *what, segdag_sizes *sizes) {
    char word[32];
    int size = snprintf(word, sizeof word, "%u %s", session, words[what->kind]);
    segdag_code code = store_before_line(store, word, (size_t)size);
    if (code)
        return code;
    if (what->kind == CLONE || what->kind == PULL)
        code = store_read_mirrors(store);
    if (code == SEGDAG_OK)
        code = store_settle(store, make(store, (uint8_t)session, what, sizes));
    if (store->place)
        store->engine->after(store);
    return code;
}

static segdag_code perform(segdag_store *store, unsigned session, const change *what, segdag_sizes *sizes) {
    if (store && (session >= SEGDAG_SESSIONS || (what->count && !what->ids) || what->count > SEGDAG_MOST_HEADS || !sizes || !store_takes_size(&sizes->size, sizeof *sizes)))
        return error_refuse(SEGDAG_ARGUMENT);
    segdag_code code = store_enter(store);
    if (code)
        return code;
    code = settle(store, session, what, sizes);
    if (code >= SEGDAG_SYNTAX && code < SEGDAG_UNSURE)
        code = answer(store, session, what, sizes);
    if (code == SEGDAG_OK)
        sizes->pending = 0;
    return store_leave(store, code);
}

segdag_code segdag_session_flush(segdag_store *store, unsigned session, const segdag_id *heads, size_t count, segdag_sizes *sizes) {
    return perform(store, session, &(change){FLUSH, heads, count}, sizes);
}

segdag_code segdag_session_strip(segdag_store *store, unsigned session, const segdag_id *ids, size_t count, segdag_sizes *sizes) {
    return store && count == 0 ? error_refuse(SEGDAG_ARGUMENT) : perform(store, session, &(change){STRIP, ids, count}, sizes);
}

segdag_code segdag_session_clone(segdag_store *store, unsigned session, segdag_sizes *sizes) {
    return perform(store, session, &(change){CLONE, NULL, 0}, sizes);
}

segdag_code segdag_session_pull(segdag_store *store, unsigned session, segdag_sizes *sizes) {
    return perform(store, session, &(change){PULL, NULL, 0}, sizes);
}
