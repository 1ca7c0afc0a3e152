/* Typed calls about commits and sessions: calls of the core, for which no text is made or read. */
#include "store.h"
#include <stdlib.h>
#include <string.h>

static const uint8_t nothing = 0;

/* ---- what a refusal is about */

/* Keeps the first of these ids that the session sees no commit of. */
static void keep_unknown(segdag_store *store, unsigned session, const segdag_id *ids, size_t count) {
    for (size_t i = 0; i < count; i++) {
        uint64_t number;
        if (segdag_core_code(segdag_core_id(&store->core, (uint8_t)session, ids[i].id, &number)) == SEGDAG_UNKNOWN) {
            error_id(&ids[i]);
            return;
        }
    }
}

static void keep_twice(const segdag_id *ids, size_t count) {
    for (size_t i = 0; i < count; i++)
        for (size_t j = 0; j < i; j++)
            if (!memcmp(&ids[i], &ids[j], sizeof *ids)) {
                error_id(&ids[i]);
                return;
            }
}

static void keep_full(segdag_store *store, unsigned session) {
    uint64_t master, others, pending;
    if (!segdag_core_sizes(&store->core, (uint8_t)session, &master, &others, &pending) && pending >= SEGDAG_MOST_PENDING)
        error_text("full pending %d", SEGDAG_MOST_PENDING);
}

/* ---- commits */

static segdag_code add(segdag_store *store, unsigned session, const segdag_id *id, const segdag_id *parents, size_t count, uint64_t *number) {
    segdag_code code;
    const uint8_t *first = count ? parents[0].id : &nothing;
    STORE_ASKED(store, code, segdag_core_add(&store->core, (uint8_t)session, id->id, first, count * sizeof *parents, number));
    if (code == SEGDAG_UNKNOWN)
        keep_unknown(store, session, parents, count);
    else if (code == SEGDAG_TWICE)
        keep_twice(parents, count);
    else if (code == SEGDAG_DIFFERS)
        error_id(id);
    else if (code == SEGDAG_FULL)
        keep_full(store, session);
    return code;
}

segdag_code segdag_commit_add(segdag_store *store, unsigned session, const segdag_id *id, const segdag_id *parents, size_t count, uint64_t *number) {
    if (store && (session >= SEGDAG_SESSIONS || !id || !number || (count && !parents) || count > SEGDAG_MOST_PARENTS))
        return error_refuse(SEGDAG_ARGUMENT);
    segdag_code code = store_enter(store);
    return code ? code : store_leave(store, add(store, session, id, parents, count, number));
}

segdag_code segdag_commit_number(segdag_store *store, unsigned session, const segdag_id *id, uint64_t *number) {
    if (store && (session >= SEGDAG_SESSIONS || !id || !number))
        return error_refuse(SEGDAG_ARGUMENT);
    segdag_code code = store_enter(store);
    if (code)
        return code;
    STORE_ASKED(store, code, segdag_core_id(&store->core, (uint8_t)session, id->id, number));
    if (code == SEGDAG_UNKNOWN)
        error_id(id);
    return store_leave(store, code);
}

/* The id of the commit at a place, counted from the greatest number, which is at place 1. */
static segdag_code id_at(segdag_store *store, unsigned session, uint64_t place, segdag_id *id) {
    size_t bytes = 0;
    segdag_code code;
    STORE_ASKED(store, code, segdag_core_at_place(&store->core, (uint8_t)session, place, &bytes));
    if (code)
        return code;
    return bytes == sizeof *id ? segdag_core_code(segdag_core_names(&store->core, 0, id->id, bytes, &bytes)) : SEGDAG_UNKNOWN;
}

/* The id of a number, by its place among what the session sees. */
static segdag_code id_of(segdag_store *store, unsigned session, uint64_t number, segdag_id *id) {
    uint64_t master = 0, others = 0, pending = 0;
    segdag_code code = segdag_core_code(segdag_core_sizes(&store->core, (uint8_t)session, &master, &others, &pending));
    if (code)
        return code;
    others += pending;
    bool is_other = number >= SEGDAG_OTHERS && number - SEGDAG_OTHERS < others;
    if (number < master || is_other)
        return id_at(store, session, is_other ? others - (number - SEGDAG_OTHERS) : others + master - number, id);
    bool may_be_other = number >= SEGDAG_OTHERS;
    error_text("unknown %s%llu", may_be_other ? "N" : "", (unsigned long long)(may_be_other ? number - SEGDAG_OTHERS : number));
    return SEGDAG_UNKNOWN;
}

segdag_code segdag_commit_id(segdag_store *store, unsigned session, uint64_t number, segdag_id *id) {
    if (store && (session >= SEGDAG_SESSIONS || !id))
        return error_refuse(SEGDAG_ARGUMENT);
    segdag_code code = store_enter(store);
    return code ? code : store_leave(store, id_of(store, session, number, id));
}

/* ---- sessions */

static segdag_code sizes_of(segdag_store *store, unsigned session, segdag_sizes *sizes) {
    return segdag_core_code(segdag_core_sizes(&store->core, (uint8_t)session, &sizes->master, &sizes->others, &sizes->pending));
}

segdag_code segdag_session_sizes(segdag_store *store, unsigned session, segdag_sizes *sizes) {
    if (store && (session >= SEGDAG_SESSIONS || !sizes || !store_takes_size(&sizes->size, sizeof *sizes)))
        return error_refuse(SEGDAG_ARGUMENT);
    segdag_code code = store_enter(store);
    return code ? code : store_leave(store, sizes_of(store, session, sizes));
}

segdag_code segdag_session_reload(segdag_store *store, unsigned session, uint64_t *pending) {
    uint64_t came = 0;
    if (store && (session >= SEGDAG_SESSIONS || !pending))
        return error_refuse(SEGDAG_ARGUMENT);
    segdag_code code = store_enter(store);
    if (code)
        return code;
    code = store_more(store, &came);
    if (code == SEGDAG_OK)
        STORE_ASKED(store, code, segdag_core_reload(&store->core, (uint8_t)session, pending));
    return store_leave(store, code);
}

segdag_code segdag_session_discard(segdag_store *store, unsigned session, uint64_t *pending) {
    if (store && (session >= SEGDAG_SESSIONS || !pending))
        return error_refuse(SEGDAG_ARGUMENT);
    segdag_code code = store_enter(store);
    return code ? code : store_leave(store, segdag_core_code(segdag_core_discard(&store->core, (uint8_t)session, pending)));
}

/* ---- two commits */

/* Keeps which of the two the session sees no commit of, where that is why a call was refused. */
static segdag_code about_two(segdag_store *store, unsigned session, segdag_code code, const segdag_id *a, const segdag_id *b) {
    if (code == SEGDAG_UNKNOWN) {
        const segdag_id both[] = {*a, *b};
        keep_unknown(store, session, both, 2);
    }
    return code;
}

segdag_code segdag_commit_is_ancestor(segdag_store *store, unsigned session, const segdag_id *a, const segdag_id *b, bool *is) {
    if (store && (session >= SEGDAG_SESSIONS || !a || !b || !is))
        return error_refuse(SEGDAG_ARGUMENT);
    segdag_code code = store_enter(store);
    if (code)
        return code;
    uint64_t count = 0;
    STORE_ASKED(store, code, segdag_core_is_ancestor(&store->core, (uint8_t)session, a->id, b->id, &count));
    *is = count == 1;
    return store_leave(store, about_two(store, session, code, a, b));
}

segdag_code segdag_commit_merge_bases(segdag_store *store, unsigned session, const segdag_id *a, const segdag_id *b, segdag_ids *bases) {
    if (store && (session >= SEGDAG_SESSIONS || !a || !b || !bases))
        return error_refuse(SEGDAG_ARGUMENT);
    segdag_code code = store_enter(store);
    if (code)
        return code;
    size_t bytes = 0;
    bases->count = 0;
    STORE_ASKED(store, code, segdag_core_merge_bases(&store->core, (uint8_t)session, a->id, b->id, &bytes));
    if (code == SEGDAG_OK)
        code = store_take_found(store, bytes, bases);
    return store_leave(store, about_two(store, session, code, a, b));
}

static segdag_code count_only(segdag_store *store, unsigned session, const segdag_id *a, const segdag_id *b, uint64_t *count) {
    segdag_code code;
    STORE_ASKED(store, code, segdag_core_only(&store->core, (uint8_t)session, a->id, b->id, count));
    return about_two(store, session, code, a, b);
}

segdag_code segdag_commit_ahead_behind(segdag_store *store, unsigned session, const segdag_pair *pairs, size_t count, segdag_distance *distances, size_t *done) {
    if (done)
        *done = 0;
    if (store && (session >= SEGDAG_SESSIONS || !done || (count && (!pairs || !distances))))
        return error_refuse(SEGDAG_ARGUMENT);
    segdag_code code = store_enter(store);
    if (code)
        return code;
    for (size_t at = 0; code == SEGDAG_OK && at < count; at += code == SEGDAG_OK) {
        code = watcher_ask(&store->asked, SEGDAG_STAGE_ANSWER, at, count);
        if (code == SEGDAG_OK)
            code = count_only(store, session, &pairs[at].left, &pairs[at].right, &distances[at].ahead);
        if (code == SEGDAG_OK)
            code = count_only(store, session, &pairs[at].right, &pairs[at].left, &distances[at].behind);
        if (done && code == SEGDAG_OK)
            *done = at + 1;
    }
    return store_leave(store, code);
}
