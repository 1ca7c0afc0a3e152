/* Drawn calls over the library's face: stores of a few paths, that several threads use at once. Each answers a code of the library, which the
   thread's last failure then has; what is answered stands within its bounds. */
#ifndef CLIB_FUZZ_H
#define CLIB_FUZZ_H
#include "clib.h"
#include <pthread.h>
#include <stdatomic.h>
#include <stdio.h>
#include <stdlib.h>
#include <unistd.h>

#define FUZZ_STORES 3

/* Stores that all threads use; who opens or closes one keeps the others off it. */
static struct {
    segdag_store *store;
    pthread_rwlock_t use;
} fuzzed[FUZZ_STORES];

static long fuzz_calls;

/* How often it was asked whether to go on. */
static atomic_uint fuzz_asked;

/* A thread's own numbers. */
typedef struct draw {
    uint64_t seed;
    pthread_t thread;
} draw;

static uint64_t drawn(draw *of, uint64_t below) {
    of->seed ^= of->seed << 13;
    of->seed ^= of->seed >> 7;
    of->seed ^= of->seed << 17;
    return of->seed % below;
}

static segdag_id drawn_id(draw *of) {
    segdag_id id;
    name_of(drawn(of, 60), &id);
    return id;
}

static unsigned drawn_session(draw *of) {
    return drawn(of, 20) == 0 ? (unsigned)of->seed : (unsigned)drawn(of, 4);
}

/* Whether a code is one, and the last failure is this one. */
static void is_told(segdag_code code) {
    WANTS(((unsigned)code < SEGDAG_UNSURE || code == SEGDAG_CANCELLED) && (code == SEGDAG_OK || (segdag_last_error()->code == code && segdag_last_error()->text[0])));
}

/* An expression or a line of drawn parts, which may be none; it is let go by the caller, and has no room behind its end. */
static char *drawn_text(draw *of, bool is_line, size_t *size) {
    static const char *const parts[] = {"all", "heads(", "(", ")", ",", "parents(", "ancestors(", "top(all,3)", "union(", "minus(", "only(", "others", "7", "\r", "", "x"};
    static const char *const lines[] = {"0 flush", "1 flush", "0 reload", "1 reload", "2 status", "0 discard", "0 query all", "3 levels", "0 clone", "0 pull", "0 mirrors", "0 drop 0", "", "# x", "16 status", "0 "};
    char text[256];
    int at = is_line ? sprintf(text, "%s", lines[drawn(of, 16)]) : 0;
    for (uint64_t count = is_line && drawn(of, 2) ? 0 : drawn(of, 6); count > 0 && at < 180; count--)
        if (drawn(of, 3))
            at += sprintf(text + at, "%s", parts[drawn(of, 16)]);
        else {
            segdag_id id = drawn_id(of);
            for (int i = 0; i < SEGDAG_ID_SIZE; i++)
                at += sprintf(text + at, "%02x", id.id[i]);
        }
    char *exact = malloc((size_t)at + 1);
    memcpy(exact, text, (size_t)at);
    *size = (size_t)at;
    return exact;
}

static void fuzz_commits(draw *of, segdag_store *store) {
    segdag_id a = drawn_id(of), parents[9], id;
    uint64_t number = drawn(of, 70);
    bool is;
    size_t count = drawn(of, 30) == 0 ? 9 : drawn(of, 4);
    for (size_t i = 0; i < 9; i++)
        parents[i] = drawn_id(of);
    switch (drawn(of, 5)) {
        case 0:
            is_told(segdag_commit_add(store, drawn_session(of), &a, parents, count, &number));
            break;
        case 1:
            is_told(segdag_commit_number(store, drawn_session(of), &a, &number));
            break;
        case 2:
            is_told(segdag_commit_id(store, drawn_session(of), drawn(of, 2) ? number : SEGDAG_OTHERS + number, &id));
            break;
        case 3:
            is_told(segdag_commit_is_ancestor(store, drawn_session(of), &a, parents, &is));
            break;
        default:
            is_told(segdag_commit_add(store, drawn_session(of), &a, NULL, 0, &number));
    }
}

static void fuzz_two(draw *of, segdag_store *store) {
    segdag_ids found = SEGDAG_IDS_INIT;
    segdag_pair pairs[3];
    segdag_distance distances[3];
    size_t done = 9, count = drawn(of, 4);
    for (int i = 0; i < 3; i++)
        pairs[i] = (segdag_pair){drawn_id(of), drawn_id(of)};
    is_told(segdag_commit_ahead_behind(store, drawn_session(of), pairs, count, distances, &done));
    WANTS(done <= count);
    is_told(segdag_commit_merge_bases(store, drawn_session(of), &pairs[0].left, &pairs[0].right, &found));
    segdag_ids_free(&found);
}

static void fuzz_queries(draw *of, segdag_store *store) {
    segdag_cursor *cursor = NULL;
    segdag_ids found = SEGDAG_IDS_INIT;
    segdag_id block[5];
    uint64_t number;
    size_t size, count = 0;
    char *text = drawn_text(of, false, &size);
    is_told(segdag_query_count(store, drawn_session(of), text, size, &number));
    is_told(segdag_query_ids(store, drawn_session(of), text, size, &found));
    is_told(segdag_query_open(store, drawn_session(of), text, size, &cursor));
    for (uint64_t left = segdag_cursor_left(cursor); cursor && left > 0 && drawn(of, 8); left -= count)
        WANTS(!segdag_cursor_next(cursor, block, 1 + drawn(of, 5), &count) && count > 0 && count <= left);
    segdag_cursor_close(cursor);
    segdag_ids_free(&found);
    free(text);
}

static void fuzz_sessions(draw *of, segdag_store *store) {
    segdag_sizes sizes = SEGDAG_SIZES_INIT;
    segdag_text reply = SEGDAG_TEXT_INIT;
    segdag_id heads[2] = {drawn_id(of), drawn_id(of)};
    uint64_t number;
    size_t size;
    char *line = drawn_text(of, true, &size);
    switch (drawn(of, 8)) {
        case 0:
            is_told(segdag_session_flush(store, drawn_session(of), heads, drawn(of, 3), &sizes));
            break;
        case 1:
            is_told(segdag_session_strip(store, drawn_session(of), heads, drawn(of, 3), &sizes));
            break;
        case 2:
            is_told(drawn(of, 2) ? segdag_session_clone(store, drawn_session(of), &sizes) : segdag_session_pull(store, drawn_session(of), &sizes));
            break;
        case 3:
            is_told(segdag_session_reload(store, drawn_session(of), &number));
            break;
        case 4:
            is_told(segdag_session_discard(store, drawn_session(of), &number));
            break;
        case 5:
            is_told(segdag_session_sizes(store, drawn_session(of), &sizes));
            break;
        default:
            is_told(segdag_store_line(store, line, size, &reply));
    }
    segdag_text_free(&reply);
    free(line);
}

/* Cancels now and then, whichever thread it is that asks. */
static bool fuzz_watch(const segdag_progress *progress, void *asked) {
    WANTS(progress->stage >= SEGDAG_STAGE_LOCK && progress->stage <= SEGDAG_STAGE_ANSWER);
    return atomic_fetch_add((atomic_uint *)asked, 1) % 7 == 6;
}

/* Opens a store anew, as it may be, beside a mirror now and then. */
static void fuzz_open(draw *of, int number) {
    static const char *const paths[] = {"fuzz.a", "fuzz.b", "fuzz.c", "fuzz.page", ".", "fuzz.none/x"};
    segdag_open_options options = SEGDAG_OPEN_OPTIONS_INIT;
    segdag_store *follower = NULL;
    options.flags = drawn(of, 3) ? SEGDAG_OPEN_CREATE : (uint32_t)drawn(of, 16) & ~(uint32_t)SEGDAG_OPEN_ANY_FILE;
    options.cache = (uint32_t)drawn(of, 5);
    options.wait = drawn(of, 10) == 0;
    options.progress = drawn(of, 3) ? NULL : fuzz_watch;
    options.context = &fuzz_asked;
    pthread_rwlock_wrlock(&fuzzed[number].use);
    segdag_store_close(fuzzed[number].store);
    is_told(segdag_store_open(paths[drawn(of, 6)], &options, &fuzzed[number].store));
    if (fuzzed[number].store && drawn(of, 3) == 0)
        is_told(segdag_mirror_add(fuzzed[number].store, paths[drawn(of, 6)]));
    if (drawn(of, 4) == 0)
        is_told(segdag_store_follow(fuzzed[number].store, &follower));
    segdag_store_close(follower);
    pthread_rwlock_unlock(&fuzzed[number].use);
}

/* What other programs do to the files meanwhile. */
static void fuzz_files(draw *of) {
    if (drawn(of, 2))
        unlink("fuzz.a");
    else
        rename("fuzz.b", "fuzz.c");
}

static void *fuzz_thread(void *own) {
    draw *of = own;
    for (long call = 0; call < fuzz_calls && failures == 0; call++) {
        int number = (int)drawn(of, FUZZ_STORES);
        uint64_t kind = drawn(of, 200);
        if (kind < 3)
            fuzz_open(of, number);
        else if (kind == 3)
            fuzz_files(of);
        pthread_rwlock_rdlock(&fuzzed[number].use);
        segdag_store *store = fuzzed[number].store;
        if (kind < 100)
            fuzz_commits(of, store);
        else if (kind < 130)
            fuzz_two(of, store);
        else if (kind < 160)
            fuzz_queries(of, store);
        else
            fuzz_sessions(of, store);
        pthread_rwlock_unlock(&fuzzed[number].use);
    }
    return NULL;
}

static inline int fuzz(uint64_t seed, long calls, int threads) {
    draw *draws = calloc((size_t)threads, sizeof *draws);
    FILE *page = fopen("fuzz.page", "w");
    WANTS(draws && page && fputs("# A page\n", page) >= 0 && !fclose(page));
    fuzz_calls = calls;
    for (int i = 0; i < FUZZ_STORES; i++)
        pthread_rwlock_init(&fuzzed[i].use, NULL);
    for (int i = 0; i < threads; i++) {
        draws[i].seed = (seed + 1) * 0x9e3779b97f4a7c15u + (uint64_t)i * 1234567;
        WANTS(!pthread_create(&draws[i].thread, NULL, fuzz_thread, &draws[i]));
    }
    for (int i = 0; i < threads; i++)
        pthread_join(draws[i].thread, NULL);
    for (int i = 0; i < FUZZ_STORES; i++)
        segdag_store_close(fuzzed[i].store);
    free(draws);
    return failures != 0;
}

#endif
