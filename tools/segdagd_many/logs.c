/* Logs by their names, the stores that are open of each, and whose each session is. A lock of the table is taken before one of a log. */
#include "many.h"
#include <stdlib.h>
#include <string.h>

#define BUCKETS 65536

static pthread_mutex_t table_lock = PTHREAD_MUTEX_INITIALIZER;
static kept_log *table[BUCKETS];
static kept_log *oldest, *newest; /* from the one that was named or looked at longest ago on */
static size_t listed;
atomic_size_t open_stores, open_bytes;

/* ---- the table */

static kept_log **bucket_of(const char *name) {
    uint32_t hash = 2166136261u;
    for (const char *at = name; *at; at++)
        hash = (hash ^ (unsigned char)*at) * 16777619u;
    return &table[(hash ^ hash >> 16) % BUCKETS];
}

static void unlist(kept_log *log) {
    if (!log->is_listed)
        return;
    *(log->older ? &log->older->newer : &oldest) = log->newer;
    *(log->newer ? &log->newer->older : &newest) = log->older;
    log->is_listed = false;
    listed--;
}

static void list(kept_log *log) {
    unlist(log);
    log->older = newest;
    log->newer = NULL;
    *(newest ? &newest->newer : &oldest) = log;
    newest = log;
    log->is_listed = true;
    listed++;
}

kept_log *log_of(const char *name) {
    pthread_mutex_lock(&table_lock);
    kept_log **place = bucket_of(name), *log = *place;
    while (log && strcmp(log->name, name))
        log = log->next_of_table;
    if (!log && (log = calloc(1, sizeof *log))) {
        log->name = strdup(name);
        if (!log->name) {
            free(log);
            log = NULL;
        } else {
            pthread_mutex_init(&log->lock, NULL);
            log->next_of_table = *place;
            *place = log;
        }
    }
    if (log) {
        log->users++;
        list(log);
    }
    pthread_mutex_unlock(&table_lock);
    return log;
}

/* Takes a log out of the table of which nothing is open, and that nobody names. */
static void forget(kept_log *log) {
    kept_log **place = bucket_of(log->name);
    while (*place != log)
        place = &(*place)->next_of_table;
    *place = log->next_of_table;
    unlist(log);
    pthread_mutex_destroy(&log->lock);
    free(log->name);
    free(log);
}

void log_leave(kept_log *log) {
    pthread_mutex_lock(&table_lock);
    log->users--;
    bool is_free = false;
    /* The lock of one that somebody names is held for as long as it is being opened, and no other log waits for that. */
    if (!log->users) {
        pthread_mutex_lock(&log->lock);
        is_free = !log->writer && !log->followers;
        pthread_mutex_unlock(&log->lock);
    }
    if (is_free)
        forget(log);
    pthread_mutex_unlock(&table_lock);
}

/* ---- stores; the log's lock is held */

static void measure(handle *open) {
    size_t figure = figure_of(open);
    open->end = end_of(open);
    atomic_fetch_add(&open_bytes, figure - open->figure);
    open->figure = figure;
}

static segdag_code open_one(kept_log *log, bool follows, bool makes, handle **made) {
    segdag_code status = root_open(log, follows, makes, made);
    if (status)
        return status;
    number_add(N_LOADS, 1);
    atomic_fetch_add(&open_stores, 1);
    measure(*made);
    if (follows) {
        (*made)->next = log->followers;
        log->followers = *made;
        log->count++;
    } else {
        log->writer = *made;
    }
    return SEGDAG_OK;
}

/* Takes the session of a client, who gets another one when it goes on. */
static void drop_session(client *one) {
    if (one->handle)
        one->handle->sessions[one->session] = NULL;
    one->handle = NULL;
}

static void close_one(handle *closed) {
    kept_log *log = closed->log;
    for (int i = 0; i < SESSIONS; i++)
        if (closed->sessions[i])
            drop_session(closed->sessions[i]);
    if (closed->follows) {
        handle **place = &log->followers;
        while (*place != closed)
            place = &(*place)->next;
        *place = closed->next;
        log->count--;
    } else {
        log->writer = NULL;
    }
    atomic_fetch_sub(&open_bytes, closed->figure);
    atomic_fetch_sub(&open_stores, 1);
    root_close(closed);
}

/* A new follower. A log whose file went away meanwhile is made anew, as `use` makes one. */
static segdag_code open_follower(kept_log *log, bool makes, handle **made) {
    segdag_code status = open_one(log, true, false, made);
    handle *maker;
    if (status != SEGDAG_NOT_OPENED || !makes || root_finds(log->name) || (status = root_open(log, false, true, &maker)))
        return status;
    root_close(maker);
    return open_one(log, true, false, made);
}

segdag_code log_try(kept_log *log, bool makes) {
    pthread_mutex_lock(&log->lock);
    handle *made = log->writer ? log->writer : log->followers;
    segdag_code status = SEGDAG_OK;
    if (!made && makes && !root_is_database() && !root_finds(log->name))
        status = open_one(log, false, true, &made);
    else if (!made)
        status = open_follower(log, makes, &made);
    pthread_mutex_unlock(&log->lock);
    return status;
}

/* ---- which are closed for room */

/* Whether nothing of it is under way or pending. */
static bool may_close(const handle *open) {
    if (open->is_busy || open->first)
        return false;
    for (int i = 0; i < SESSIONS; i++)
        if (open->sessions[i] && (open->sessions[i]->is_running || open->sessions[i]->has_rows))
            return false;
    return true;
}

/* Closes what may be closed of a log, whose lock is held: all of it, or what was opened by an earlier configuration. */
static void close_idle(kept_log *log, bool all) {
    unsigned version = atomic_load(&rules_version);
    for (handle *open = log->followers, *next; open; open = next) {
        next = open->next;
        if ((all || open->rules != version) && may_close(open)) {
            close_one(open);
            number_add(N_CLOSED, 1);
        }
    }
    if (log->writer && (all || log->writer->rules != version) && !log->first && may_close(log->writer)) {
        close_one(log->writer);
        number_add(N_CLOSED, 1);
    }
}

static bool is_full(void) {
    return atomic_load(&open_bytes) > many.memory || atomic_load(&open_stores) > many.handles;
}

/* Closes the stores of logs that were used longest ago, until there is room. One that was used since the last look is passed over once. */
void logs_trim(void) {
    if (!is_full())
        return;
    pthread_mutex_lock(&table_lock);
    size_t looks = 2 * listed;
    for (kept_log *log = oldest; log && is_full() && looks > 0; looks--) {
        kept_log *next = log->newer;
        if (atomic_exchange(&log->is_used, false)) {
            list(log);
        } else if (!pthread_mutex_trylock(&log->lock)) {
            close_idle(log, true);
            bool is_closed = !log->writer && !log->followers;
            pthread_mutex_unlock(&log->lock);
            if (is_closed && !log->users)
                forget(log);
            else
                list(log);
        }
        log = next ? next : oldest;
    }
    pthread_mutex_unlock(&table_lock);
}

/* By how many bytes the follower is behind its log's writer that is behind it by most. A log that is being opened is passed over. */
uint64_t logs_lag(void) {
    uint64_t most = 0;
    pthread_mutex_lock(&table_lock);
    for (kept_log *log = oldest; log; log = log->newer) {
        if (pthread_mutex_trylock(&log->lock))
            continue;
        for (const handle *open = log->followers; open && log->writer; open = open->next)
            if (log->writer->end > open->end && log->writer->end - open->end > most)
                most = log->writer->end - open->end;
        pthread_mutex_unlock(&log->lock);
    }
    pthread_mutex_unlock(&table_lock);
    return most;
}

/* ---- sessions */

static void wait_in(client **first, client **last, client *one) {
    one->next = NULL;
    *(*first ? &(*last)->next : first) = one;
    *last = one;
    one->is_waiting = true;
}

static client *first_of(client **first) {
    client *one = *first;
    if (one) {
        *first = one->next;
        one->is_waiting = false;
    }
    return one;
}

static void take_out(client **first, client **last, client *one) {
    client *before = NULL;
    for (client *at = *first; at; before = at, at = at->next) {
        if (at != one)
            continue;
        *(before ? &before->next : first) = one->next;
        if (*last == one)
            *last = before;
        one->is_waiting = false;
        return;
    }
}

/* A session that is nobody's, or was that of a client who is idle for longest and has no rows; else -1. */
static int slot_of(handle *open) {
    int lent = -1;
    for (int i = 0; i < SESSIONS; i++) {
        client *whose = open->sessions[i];
        if (!whose)
            return i;
        if (!whose->is_running && !whose->is_waiting && !whose->has_rows && (lent < 0 || whose->active < open->sessions[lent]->active))
            lent = i;
    }
    if (lent >= 0) {
        drop_session(open->sessions[lent]);
        number_add(N_LENT, 1);
    }
    return lent;
}

static void give(handle *open, int slot, client *one) {
    open->sessions[slot] = one;
    one->handle = open;
    one->session = slot;
    one->is_new = true;
}

/* A follower that nobody uses, a new one where all are used, or the one for which fewest wait. */
static segdag_code take_follower(kept_log *log, client *one) {
    handle *best = NULL;
    int slot = -1;
    for (handle *open = log->followers; open && slot < 0; open = open->next)
        if (!open->is_busy && (slot = slot_of(open)) >= 0)
            best = open;
    if (slot < 0 && log->count < many.followers) {
        segdag_code status = open_follower(log, one->may & MAY_WRITE, &best);
        if (status && !log->followers)
            return status;
        slot = status ? -1 : 0;
    }
    for (handle *open = log->followers; open && slot < 0; open = open->next)
        if ((slot = slot_of(open)) >= 0)
            best = open;
    if (slot >= 0)
        give(best, slot, one);
    return SEGDAG_OK;
}

static segdag_code take_writer(kept_log *log, client *one) {
    segdag_code status = log->writer ? SEGDAG_OK : open_one(log, false, true, &log->writer);
    int slot = status ? -1 : slot_of(log->writer);
    if (slot >= 0)
        give(log->writer, slot, one);
    return status;
}

outcome session_take(client *one, bool changes, segdag_code *why) {
    kept_log *log = one->log;
    outcome found = HAS_IT;
    pthread_mutex_lock(&log->lock);
    *why = SEGDAG_OK;
    if (one->is_running || one->is_waiting) {
        /* The one before it handed the store on to it, or hasn't yet. */
        found = one->is_running ? HAS_IT : PARKED;
        pthread_mutex_unlock(&log->lock);
        return found;
    }
    close_idle(log, false);
    if (one->handle && changes && one->handle->follows) {
        drop_session(one);
        one->moves = true;
    }
    if (atomic_load(&one->doom) != GOES_ON) {
        found = TOLD;
    } else if (!one->handle) {
        *why = changes ? take_writer(log, one) : take_follower(log, one);
        if (*why)
            found = REFUSED;
    }
    if (found == HAS_IT && !one->handle) {
        wait_in(&log->first, &log->last, one);
        found = PARKED;
    } else if (found == HAS_IT && one->handle->is_busy) {
        wait_in(&one->handle->first, &one->handle->last, one);
        found = PARKED;
    } else if (found == HAS_IT) {
        one->handle->is_busy = one->is_running = true;
    }
    atomic_store(&log->is_used, true);
    pthread_mutex_unlock(&log->lock);
    return found;
}

/* Wakes who waits for a session, where one may be had. */
static void wake_next(kept_log *log) {
    client *next = first_of(&log->first);
    if (next)
        client_wake(next);
}

/* Hands the store on to who waits for it longest. */
static void hand_on(client *one) {
    handle *open = one->handle;
    client *next = first_of(&open->first);
    one->is_running = false;
    open->is_busy = next != NULL;
    one->active = now();
    if (next) {
        next->is_running = true;
        client_wake(next);
    }
}

void session_give(client *one) {
    kept_log *log = one->log;
    pthread_mutex_lock(&log->lock);
    measure(one->handle);
    hand_on(one);
    if (!one->has_rows)
        wake_next(log);
    pthread_mutex_unlock(&log->lock);
}

void session_fail(client *one, int code) {
    kept_log *log = one->log;
    pthread_mutex_lock(&log->lock);
    handle *open = one->handle;
    open->is_busy = one->is_running = false;
    drop_session(one);
    for (client *next; (next = first_of(&open->first));)
        client_wake(next);
    for (int i = 0; i < SESSIONS; i++) {
        client *other = open->sessions[i];
        if (other && other->has_base) {
            atomic_store(&other->doom, code);
            client_wake(other);
        }
    }
    wake_next(log);
    close_one(open);
    pthread_mutex_unlock(&log->lock);
}

/* The log's lock is held. */
static void rest(client *one) {
    kept_log *log = one->log;
    if (one->is_waiting && one->handle)
        take_out(&one->handle->first, &one->handle->last, one);
    if (one->is_waiting)
        take_out(&log->first, &log->last, one);
    if (one->is_running)
        hand_on(one);
}

void session_rest(client *one) {
    if (!one->log)
        return;
    pthread_mutex_lock(&one->log->lock);
    rest(one);
    wake_next(one->log);
    pthread_mutex_unlock(&one->log->lock);
}

void session_leave(client *one) {
    kept_log *log = one->log;
    if (!log)
        return;
    pthread_mutex_lock(&log->lock);
    rest(one);
    drop_session(one);
    wake_next(log);
    pthread_mutex_unlock(&log->lock);
    one->log = NULL;
    log_leave(log);
}
