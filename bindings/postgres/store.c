/* Stores over logs in PostgreSQL. No proof covers it: who stores lacks nothing of what others stored and appends behind it, a reply counts only
   behind COMMIT, and a core whose transaction failed is thrown away. */
#define _GNU_SOURCE
#include "rows.h"
#include <inttypes.h>
#include <stdio.h>
#include <stdlib.h>
#include <string.h>

typedef struct place {
    database base;
    mark end;     /* up to where the core has taken the log */
    uint64_t own; /* where the last change begins that this store put there itself */
    bool is_open; /* a transaction that holds the log's lock */
} place;

/* The writes of a change, laid over one another: the bytes from the log's closed gate on. */
typedef struct laid {
    uint8_t *bytes;
    size_t size, room;
} laid;

/* ---- what others stored */

/* Gives the core what was read behind its end. Where it takes only some it can't go on: what it has doesn't end where a row does. */
static segdag_code give(segdag_store *store, const rows *read, uint64_t *count) {
    place *at = store->place;
    uint32_t came = 0;
    if (read->size == 0) {
        at->end = read->end;
        return SEGDAG_OK;
    }
    segdag_code status = segdag_core_code(segdag_core_more(&store->core, read->bytes, read->size + 1, &came));
    *count = came;
    if (status == SEGDAG_OK)
        at->end = read->end;
    else if (status == SEGDAG_NO_LOG)
        database_tell("the rows after byte %" PRIu64 " aren't a log", at->end.end);
    return status && came ? store_fail(store, status) : status;
}

/* Takes what came. It has to be sure. */
static segdag_code take(segdag_store *store, uint64_t *count) {
    place *at = store->place;
    rows read;
    segdag_code status = rows_read(&at->base, &at->end, &read);
    if (status == SEGDAG_OK && read.size && read.may_be_new)
        status = rows_confirm(&at->base);
    if (status == SEGDAG_OK)
        status = give(store, &read, count);
    rows_free(&read);
    return status;
}

static segdag_code take_more(segdag_store *store, uint64_t *count) {
    place *at = store->place;
    int64_t end = clock_now() + at->base.patience;
    for (;;) {
        segdag_code status = database_reach(&at->base, true);
        if (status)
            return status;
        status = take(store, count);
        if (!database_is_lost(status))
            return status;
        database_leave(&at->base);
        if (status == SEGDAG_STALE || clock_now() >= end)
            return status;
    }
}

/* ---- transactions */

static void roll_back(segdag_store *store) {
    place *at = store->place;
    /* Who let go of the connection let go of the transaction. */
    if (at->is_open && at->base.link && database_do(&at->base, "rollback"))
        database_leave(&at->base);
    at->is_open = false;
}

/* Takes the lock, and all that others stored. That this is sure is for the COMMIT to say. */
static segdag_code lock_and_take(segdag_store *store) {
    place *at = store->place;
    rows read;
    uint64_t count = 0;
    segdag_code status = rows_lock_and_read(&at->base, &at->end, &read);
    if (status == SEGDAG_OK)
        status = give(store, &read, &count);
    rows_free(&read);
    return status;
}

/* Begins a change. Nothing is done so far, so it may be begun anew. */
static segdag_code begin(segdag_store *store) {
    place *at = store->place;
    int64_t end = clock_now() + at->base.patience;
    for (;;) {
        segdag_code status = database_reach(&at->base, true);
        if (status)
            return status;
        at->is_open = true;
        status = lock_and_take(store);
        if (status && store->place)
            roll_back(store);
        if (!database_is_lost(status) || !store->place)
            return status;
        database_leave(&at->base);
        if (status == SEGDAG_STALE || clock_now() >= end)
            return status;
    }
}

/* What became of a COMMIT whose end isn't known: SEGDAG_OK where the change is stored, SEGDAG_GONE where it isn't, and SEGDAG_UNSURE where
   that can't be seen, for as long as there is patience. `last` is the mark in front of its last row, and is moved behind it. */
static segdag_code settle(database *base, mark *last, const laid *over) {
    int64_t end = clock_now() + base->patience;
    do {
        bool is_there = false;
        mark found = *last;
        database_leave(base);
        segdag_code status = database_reach(base, true);
        if (status == SEGDAG_OK)
            status = rows_look(base, &found, over->bytes, over->size - 1, &is_there);
        if (status == SEGDAG_OK) {
            *last = found;
            return is_there ? SEGDAG_OK : SEGDAG_GONE;
        }
        if (!database_is_lost(status))
            break;
    } while (clock_now() < end);
    database_leave(base);
    return SEGDAG_UNSURE;
}

/* ---- what the core notes */

/* Lays the piece that is noted next. */
static segdag_code lay(segdag_store *store, laid *over, uint64_t at, size_t size) {
    uint64_t end = ((place *)store->place)->end.end;
    if (at < end || at + size > MOST_BYTES)
        return SEGDAG_DISK;
    size_t from = (size_t)(at - end);
    void *bytes = over->bytes;
    bool has_room = store_grow(&bytes, &over->room, from + size, 1);
    over->bytes = bytes;
    if (!has_room)
        return SEGDAG_MEMORY;
    if (from > over->size)
        memset(over->bytes + over->size, 0, from - over->size);
    for (size_t done = 0, count = 0; done < size; done += count)
        if (segdag_core_piece(&store->core, done, over->bytes + from + done, size - done, &count) || count == 0)
            return SEGDAG_DISK;
    if (from + size > over->size)
        over->size = from + size;
    return SEGDAG_OK;
}

/* Lays all that was noted. It is let go of, as if it were performed: the transaction performs all of it, or else the core is closed. */
static segdag_code lay_noted(segdag_store *store, laid *over) {
    for (;;) {
        uint32_t kind = SEGDAG_CORE_NOTHING;
        uint64_t at = 0;
        size_t size = 0;
        if (segdag_core_next(&store->core, &kind, &at, &size))
            return SEGDAG_DISK;
        if (kind == SEGDAG_CORE_NOTHING)
            return SEGDAG_OK;
        segdag_code status = kind == SEGDAG_CORE_WRITE ? lay(store, over, at, size) : SEGDAG_OK;
        if (status)
            return status;
        segdag_core_performed(&store->core);
    }
}

/* Tells who waits, without waiting for it: if it is lost they see it at their next question. */
static void notify(place *at) {
    char text[128];
    snprintf(text, sizeof text, "select set_config('synchronous_commit', 'off', true), pg_notify('segdag_%" PRId64 "', '')", at->end.id);
    at->base.has_sent = PQsendQuery(at->base.link, text);
}

/* Stores the change by the transaction that is open. */
static segdag_code store_laid(segdag_store *store, const laid *over) {
    place *at = store->place;
    mark end = at->end, last;
    bool is_known = false;
    if (!at->is_open || over->size < 2 || over->bytes[0] != 1 || over->bytes[over->size - 1] == 1)
        return SEGDAG_DISK;
    segdag_code status = rows_commit(&at->base, &end, over->bytes, over->size - 1, &last, &is_known);
    at->is_open = false;
#ifdef SEGDAG_PLANT_NO_LOOK
    is_known = true;
#endif
    if (!is_known) {
        status = settle(&at->base, &last, over);
        end = last;
    }
    if (status)
        return status;
    at->own = at->end.end;
    at->end = end;
    if (!at->base.has_sent)
        notify(at);
    return SEGDAG_OK;
}

static segdag_code perform(segdag_store *store) {
    laid over = {0};
    segdag_code status = lay_noted(store, &over);
    if (status == SEGDAG_OK && over.size)
        status = store_laid(store, &over);
    free(over.bytes);
    return status;
}

/* ---- lines */

/* What a line has to do with what is stored. */
typedef enum verb { IS_OTHER, LOOKS, CHANGES } verb;

static verb verb_of(const char *line, size_t size) {
    static const struct {
        const char *word;
        verb verb;
    } words[] = {{"flush", CHANGES}, {"strip", CHANGES}, {"clone", CHANGES}, {"pull", CHANGES}, {"reload", LOOKS}, {"levels", LOOKS}};
    size_t at = 0;
    while (at < size && line[at] >= '0' && line[at] <= '9')
        at++;
    if (at == 0 || at == size || line[at++] != ' ')
        return IS_OTHER;
    for (size_t i = 0; i < sizeof words / sizeof *words; i++) {
        size_t length = strlen(words[i].word);
        if (size - at >= length && !memcmp(line + at, words[i].word, length) && (size - at == length || line[at + length] == ' '))
            return words[i].verb;
    }
    return IS_OTHER;
}

static segdag_code before(segdag_store *store, const char *line, size_t size) {
    place *at = store->place;
    uint64_t count = 0;
    verb verb = verb_of(line, size);
    if (verb == IS_OTHER)
        return SEGDAG_OK;
#ifdef SEGDAG_PLANT_BEHIND
    if (verb == LOOKS)
        return SEGDAG_OK;
#endif
    if (verb == LOOKS)
        return take_more(store, &count);
    return at->base.follows ? SEGDAG_READ_ONLY : begin(store);
}

static void after(segdag_store *store) {
    roll_back(store);
}

static segdag_code more(segdag_store *store, uint64_t *count) {
    return take_more(store, count);
}

static void leave(segdag_store *store) {
    place *at = store->place;
    database_free(&at->base);
    free(at);
}

static const store_engine postgres = {before, perform, after, more, leave};

/* ---- stores */

/* Reads the log. Who may write reads it behind its lock: what a transaction of an end that isn't known was to store is there by then, or
   never will be. */
static segdag_code read_whole(place *at, rows *read) {
    *read = (rows){0};
    segdag_code status = at->base.follows ? SEGDAG_OK : rows_lock(&at->base);
    if (status == SEGDAG_OK)
        status = rows_read(&at->base, &at->end, read);
    if (status == SEGDAG_OK && !at->base.follows)
        return rows_make_sure(&at->base, "commit");
    if (status == SEGDAG_OK && read->size && read->may_be_new)
        return rows_confirm(&at->base);
    return status == SEGDAG_REPLACED ? SEGDAG_NOT_OPENED : status;
}

/* Lends the core the log. What the core notes of a log without rows is the closed gate, which no row has. */
static segdag_code load(segdag_store *store, uint32_t cache) {
    place *at = store->place;
    rows read;
    segdag_code status = read_whole(at, &read);
    if (status == SEGDAG_OK)
        status = segdag_core_code(segdag_core_load(&store->core, read.bytes, read.size + 1, cache));
    rows_free(&read);
    if (status == SEGDAG_OK) {
        store_drop_noted(store);
        at->end = read.end;
    }
    return status;
}

static segdag_code open_store(segdag_store *made, const char *conninfo, const char *log, bool follows) {
    place *at = calloc(1, sizeof *at);
    if (!at)
        return SEGDAG_MEMORY;
    made->only_reads = made->follows = follows;
    made->engine = &postgres;
    made->place = at;
    segdag_code status = database_make(&at->base, conninfo, log, follows);
    if (status == SEGDAG_OK)
        status = database_reach(&at->base, false);
    if (status == SEGDAG_OK)
        status = load(made, made->cache);
    return status == SEGDAG_GONE ? SEGDAG_NOT_OPENED : status;
}

static segdag_code open_made(const char *conninfo, const char *log, uint32_t cache, bool follows, segdag_store **store) {
    if (store)
        *store = NULL;
    if (!store || !conninfo || !log || !*log || cache == 0 || cache > SEGDAG_MOST_CACHE)
        return error_refuse(SEGDAG_ARGUMENT);
    error_begin();
    segdag_store *made = store_make(NULL);
    if (!made)
        return error_end(SEGDAG_MEMORY, NULL);
    made->cache = cache;
    segdag_code status = error_end(open_store(made, conninfo, log, follows), NULL);
    if (status)
        segdag_store_close(made);
    else
        *store = made;
    return status;
}

segdag_code segdag_postgres_open(const char *conninfo, const char *log, uint32_t cache, segdag_store **store) {
    return open_made(conninfo, log, cache, false, store);
}

segdag_code segdag_postgres_follow(const char *conninfo, const char *log, uint32_t cache, segdag_store **store) {
    return open_made(conninfo, log, cache, true, store);
}

/* Begins a call of those that are for stores over a database alone. */
static segdag_code enter(segdag_store *store) {
    segdag_code status = store_enter(store);
    return status || store->engine == &postgres ? status : store_leave(store, SEGDAG_ARGUMENT);
}

segdag_code segdag_postgres_patience(segdag_store *store, uint32_t milliseconds) {
    if (!store) {
        database_patience = milliseconds;
        return SEGDAG_OK;
    }
    segdag_code status = enter(store);
    if (status)
        return status;
    ((place *)store->place)->base.patience = milliseconds;
    return store_leave(store, SEGDAG_OK);
}

segdag_code segdag_postgres_end(segdag_store *store, uint64_t *end, uint64_t *own) {
    if (store && (!end || !own))
        return error_refuse(SEGDAG_ARGUMENT);
    segdag_code status = enter(store);
    if (status)
        return status;
    place *at = store->place;
    *end = at->end.end;
    *own = at->own;
    return store_leave(store, SEGDAG_OK);
}

/* ---- waiting */

/* Asks the server to tell when something is stored. */
static segdag_code listen_to(place *at) {
    char text[64];
    segdag_code status = database_reach(&at->base, true);
    if (status || at->base.listens)
        return status;
    snprintf(text, sizeof text, "listen segdag_%" PRId64, at->end.id);
    status = database_do(&at->base, text);
    at->base.listens = status == SEGDAG_OK;
    return status;
}

/* Whether the server told that something was stored, also beside what it was asked. */
static bool heard_any(database *base) {
    bool is_any = false;
    for (PGnotify *heard; (heard = PQnotifies(base->link)); is_any = true)
        PQfreemem(heard);
    return is_any;
}

static segdag_code wait_for(segdag_store *store, int64_t end, uint64_t *count) {
    segdag_code status;
    do {
        place *at = store->place;
        status = listen_to(at);
        if (status == SEGDAG_OK)
            status = take_more(store, count);
        if (status || *count || !at->base.link)
            return status;
        while (!heard_any(&at->base) && database_hears(&at->base, end - clock_now()) && PQconsumeInput(at->base.link))
            ;
    } while (clock_now() < end);
    return status;
}

segdag_code segdag_postgres_wait(segdag_store *store, uint32_t milliseconds, uint64_t *count) {
    if (store && !count)
        return error_refuse(SEGDAG_ARGUMENT);
    segdag_code status = enter(store);
    if (status)
        return status;
    *count = 0;
    return store_leave(store, wait_for(store, clock_now() + milliseconds, count));
}
