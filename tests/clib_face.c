/* What tests/clib.sh runs over the library's face, by the header alone: `clib_face FOLDER` tries, in a new folder, what each failure tells, the
   codes' names, answers in pieces, followers of an open store, and calls that tell how far they have come and are cancelled; `clib_face fuzz FOLDER SEED CALLS THREADS` makes drawn calls. */
#define _GNU_SOURCE
#include "clib_fuzz.h"
#include <errno.h>
#include <pthread.h>
#include <stdlib.h>
#include <sys/stat.h>
#include <unistd.h>

/* ---- what a failure tells */

/* Whether the last failure has this code and text, and this commit, if any. */
static bool tells(segdag_code code, const char *text, const segdag_id *id) {
    const segdag_error *last = segdag_last_error();
    bool does = last->code == code && !strcmp(last->text, text) && last->has_id == (id != NULL) && (!id || is_same(&last->id, id));
    if (!does)
        fprintf(stderr, "it tells %d: %s\n", last->code, last->text);
    return does;
}

/* The text of a refusal about one commit. */
static const char *about(const char *word, const segdag_id *id) {
    static char text[128];
    int at = snprintf(text, sizeof text, "%s ", word);
    for (int i = 0; i < SEGDAG_ID_SIZE; i++)
        at += snprintf(text + at, sizeof text - (size_t)at, "%02x", id->id[i]);
    return text;
}

/* The system's number and call of the last failure. */
static bool is_of(int system, const char *call) {
    const segdag_error *last = segdag_last_error();
    return last->system == system && (call ? last->call && !strcmp(last->call, call) : !last->call);
}

static void try_refusals(segdag_store *store, const segdag_id ids[4]) {
    const segdag_id twice[] = {ids[0], ids[1], ids[0]}, unseen[] = {ids[0], ids[3]};
    segdag_sizes sizes = SEGDAG_SIZES_INIT;
    segdag_ids found = SEGDAG_IDS_INIT;
    segdag_distance distance;
    segdag_pair pair = {ids[3], ids[0]};
    segdag_id id;
    uint64_t number;
    size_t done;
    bool is;
    char text[64];
    WANTS(segdag_commit_number(store, 0, &ids[3], &number) && tells(SEGDAG_UNKNOWN, about("unknown", &ids[3]), &ids[3]));
    WANTS(segdag_commit_add(store, 0, &ids[3], unseen, 2, &number) && tells(SEGDAG_UNKNOWN, about("unknown", &ids[3]), &ids[3]));
    WANTS(segdag_commit_add(store, 0, &ids[3], twice, 3, &number) && tells(SEGDAG_TWICE, about("twice", &ids[0]), &ids[0]));
    WANTS(segdag_commit_add(store, 0, &ids[1], NULL, 0, &number) && tells(SEGDAG_DIFFERS, about("differs", &ids[1]), &ids[1]));
    WANTS(segdag_commit_is_ancestor(store, 0, &ids[0], &ids[3], &is) && tells(SEGDAG_UNKNOWN, about("unknown", &ids[3]), &ids[3]));
    WANTS(segdag_commit_merge_bases(store, 0, &ids[3], &ids[0], &found) && tells(SEGDAG_UNKNOWN, about("unknown", &ids[3]), &ids[3]));
    WANTS(segdag_commit_ahead_behind(store, 0, &pair, 1, &distance, &done) && tells(SEGDAG_UNKNOWN, about("unknown", &ids[3]), &ids[3]));
    WANTS(segdag_session_flush(store, 0, &ids[3], 1, &sizes) && tells(SEGDAG_UNKNOWN, about("unknown", &ids[3]), &ids[3]));
    WANTS(segdag_session_strip(store, 1, &ids[0], 1, &sizes) && tells(SEGDAG_MASTER, about("master", &ids[0]), &ids[0]));
    WANTS(segdag_session_strip(store, 0, &ids[0], 1, &sizes) && tells(SEGDAG_PENDING, "pending 1", NULL));
    WANTS(segdag_session_clone(store, 1, &sizes) && tells(SEGDAG_NOT_EMPTY, "not-empty 2 0", NULL));
    WANTS(segdag_session_pull(store, 1, &sizes) && tells(SEGDAG_NO_REMOTE, "no-remote", NULL));
    snprintf(text, sizeof text, "heads(%s)", about("", &ids[3]) + 1);
    WANTS(segdag_query_count(store, 0, text, strlen(text), &number) && tells(SEGDAG_UNKNOWN, about("unknown", &ids[3]), &ids[3]));
    WANTS(segdag_query_ids(store, 0, text, strlen(text), &found) && tells(SEGDAG_UNKNOWN, about("unknown", &ids[3]), &ids[3]));
    WANTS(segdag_query_ids(store, 0, "heads(al", 8, &found) && tells(SEGDAG_SYNTAX, "syntax", NULL));
    WANTS(segdag_commit_id(store, 0, 2, &id) && tells(SEGDAG_UNKNOWN, "unknown 2", NULL));
    WANTS(segdag_commit_id(store, 0, SEGDAG_OTHERS + 7, &id) && tells(SEGDAG_UNKNOWN, "unknown N7", NULL));
    WANTS(segdag_session_discard(store, 16, &number) && tells(SEGDAG_ARGUMENT, segdag_code_text(SEGDAG_ARGUMENT), NULL) && is_of(0, NULL));
    WANTS(!segdag_session_discard(store, 0, &number) && segdag_last_error()->code == SEGDAG_ARGUMENT);
    WANTS(segdag_session_discard(NULL, 0, &number) && tells(SEGDAG_CLOSED, segdag_code_text(SEGDAG_CLOSED), NULL));
    segdag_ids_free(&found);
}

/* Fills a session with as many commits as may be pending. */
static void try_full(segdag_store *store) {
    segdag_id id;
    uint64_t number;
    segdag_code code = SEGDAG_OK;
    for (uint64_t row = 100; code == SEGDAG_OK && row < 100 + 2 * SEGDAG_MOST_PENDING; row++) {
        name_of(row, &id);
        code = segdag_commit_add(store, 2, &id, NULL, 0, &number);
    }
    WANTS(code == SEGDAG_FULL && tells(SEGDAG_FULL, "full pending 65536", NULL));
}

static void try_opening(void) {
    segdag_store *store = NULL, *second = NULL;
    WANTS(segdag_store_open("none", NULL, &store) == SEGDAG_NOT_OPENED && tells(SEGDAG_NOT_OPENED, "none: stat: No such file or directory", NULL) && is_of(ENOENT, "stat"));
    WANTS(open_log("none/log", 0, &store) == SEGDAG_NOT_OPENED && tells(SEGDAG_NOT_OPENED, "none/log: open: No such file or directory", NULL));
    WANTS(open_log(".", 0, &store) == SEGDAG_NOT_OPENED && tells(SEGDAG_NOT_OPENED, ".: not a regular file", NULL) && is_of(0, NULL));
    WANTS(!symlink("round", "round") && open_log("round", 0, &store) == SEGDAG_NOT_OPENED && is_of(ELOOP, "stat"));
    FILE *page = fopen("page", "w");
    WANTS(page && fputs("# A page\n", page) >= 0 && !fclose(page) && open_log("page", 0, &store) == SEGDAG_FOREIGN);
    WANTS(!strncmp(segdag_last_error()->text, "page: the file isn't a log", 26));
    WANTS(!open_log("log", 0, &store) && open_log("log", 0, &second) == SEGDAG_LOCKED && !strncmp(segdag_last_error()->text, "log: the log is open for writing", 32));
    WANTS(!close_log(&store) && is_of(0, NULL));
}

/* A line is given without its end, but for the return in front of it. */
static void try_lines(void) {
    segdag_store *store = NULL;
    segdag_text reply = SEGDAG_TEXT_INIT;
    WANTS(!open_log("lines", 0, &store) && is_reply(store, "0 status", "ok 0 0 0\n") && is_reply(store, "0 status\r", "ok 0 0 0\n"));
    WANTS(is_reply(store, "0 status\r\r", "err syntax\n") && is_reply(store, "\r", "") && is_reply(store, "", "") && is_reply(store, "# a remark\r", ""));
    WANTS(segdag_store_line(store, "0 status\n", 9, &reply) == SEGDAG_ARGUMENT && segdag_store_line(store, "0 status\r\n", 10, &reply) == SEGDAG_ARGUMENT);
    WANTS(segdag_store_line(store, NULL, 1, &reply) == SEGDAG_ARGUMENT && !segdag_store_line(store, NULL, 0, &reply) && reply.size == 0 && !close_log(&store));
    segdag_text_free(&reply);
}

/* A failure is the thread's own. */
static void *has_none(void *nothing) {
    WANTS(segdag_last_error()->code == SEGDAG_OK && segdag_last_error()->text[0]);
    return nothing;
}

static void try_errors(void) {
    segdag_store *store = NULL;
    segdag_id ids[4];
    segdag_sizes sizes = SEGDAG_SIZES_INIT;
    pthread_t thread;
    has_none(NULL);
    for (uint64_t i = 0; i < 4; i++)
        name_of(i, &ids[i]);
    WANTS(!open_log("errors", 0, &store) && !add_row(store, 0) && !add_row(store, 1) && !segdag_session_flush(store, 0, &ids[1], 1, &sizes) && !add_row(store, 2));
    WANTS(sizes.master == 2 && sizes.others == 0 && sizes.pending == 0);
    uint64_t pending;
    WANTS(!segdag_session_reload(store, 1, &pending));
    try_refusals(store, ids);
    WANTS(!pthread_create(&thread, NULL, has_none, NULL) && !pthread_join(thread, NULL));
    try_full(store);
    WANTS(!rename("errors", "moved") && segdag_session_flush(store, 0, NULL, 0, &sizes) == SEGDAG_REPLACED && strstr(segdag_last_error()->text, "/errors: the log's file was removed or replaced"));
    WANTS(!close_log(&store));
}

/* Each code has a name and a sentence of its own. */
static void try_codes(void) {
    for (int code = 0; code < SEGDAG_CODES; code++) {
        WANTS(segdag_code_name((segdag_code)code) && segdag_code_text((segdag_code)code));
        for (int other = 0; other < code; other++)
            WANTS(strcmp(segdag_code_name((segdag_code)code), segdag_code_name((segdag_code)other)) && strcmp(segdag_code_text((segdag_code)code), segdag_code_text((segdag_code)other)));
    }
    WANTS(!strcmp(segdag_code_name((segdag_code)-1), "none") && !strcmp(segdag_code_name(SEGDAG_CODES), "none") && segdag_code_text(SEGDAG_CODES));
    int number[3];
    WANTS(sscanf(SEGDAG_VERSION, "%d.%d.%d", &number[0], &number[1], &number[2]) == 3 && (number[0] * 1000 + number[1]) * 1000 + number[2] == SEGDAG_VERSION_NUMBER);
    WANTS(!strcmp(segdag_version(), SEGDAG_VERSION) && !strcmp(segdag_code_name(SEGDAG_NOT_OPENED), "not-opened"));
}

/* ---- answers in pieces */

static void try_cursor(void) {
    segdag_store *store = NULL;
    segdag_cursor *cursor = NULL;
    segdag_id block[7], wanted;
    segdag_ids all = SEGDAG_IDS_INIT;
    size_t count = 0, seen = 0;
    WANTS(!open_log("pieces", 0, &store));
    for (uint64_t row = 0; row < 100; row++)
        WANTS(!add_row(store, row));
    WANTS(segdag_query_open(store, 0, "heads(", 6, &cursor) == SEGDAG_SYNTAX && !cursor && segdag_query_open(store, 0, "all", 3, NULL) == SEGDAG_ARGUMENT);
    WANTS(segdag_query_open(NULL, 0, "all", 3, &cursor) == SEGDAG_CLOSED && segdag_query_open(store, 16, "all", 3, &cursor) == SEGDAG_ARGUMENT);
    WANTS(!segdag_query_open(store, 0, "all", 3, &cursor) && segdag_cursor_left(cursor) == 100);
    WANTS(segdag_cursor_next(cursor, block, 0, &count) == SEGDAG_ARGUMENT && segdag_cursor_next(cursor, NULL, 7, &count) == SEGDAG_ARGUMENT && segdag_cursor_next(NULL, block, 7, &count) == SEGDAG_ARGUMENT);
    WANTS(!add_row(store, 100) && !segdag_query_ids(store, 0, "all", 3, &all) && all.count == 101 && !close_log(&store));
    while (!segdag_cursor_next(cursor, block, 7, &count) && count > 0)
        for (size_t i = 0; i < count; i++, seen++) {
            name_of(99 - seen, &wanted);
            WANTS(is_same(&block[i], &wanted) && is_same(&block[i], &all.ids[seen + 1]));
        }
    WANTS(seen == 100 && segdag_cursor_left(cursor) == 0 && segdag_cursor_left(NULL) == 0);
    segdag_cursor_close(cursor);
    segdag_cursor_close(NULL);
    segdag_ids_free(&all);
}

/* ---- followers of an open store */

static void try_follow(void) {
    segdag_store *store = NULL, *reader = NULL, *again = NULL;
    segdag_sizes sizes = SEGDAG_SIZES_INIT;
    segdag_id id;
    uint64_t changes = 0, pending = 0;
    name_of(0, &id);
    WANTS(segdag_store_follow(NULL, &reader) == SEGDAG_CLOSED && !open_log("followed", 3, &store) && segdag_store_follow(store, NULL) == SEGDAG_ARGUMENT);
    WANTS(!segdag_mirror_add(store, "moved") && !segdag_store_follow(store, &reader) && is_reply(reader, "0 mirrors", "ok 1\n"));
    WANTS(!add_row(store, 0) && !segdag_session_flush(store, 0, &id, 1, &sizes) && !segdag_store_refresh(reader, &changes) && changes == 1);
    WANTS(!segdag_session_reload(reader, 0, &pending) && is_reply(reader, "0 count all", "ok 1\n") && segdag_session_flush(reader, 0, NULL, 0, &sizes) == SEGDAG_READ_ONLY);
    WANTS(!segdag_store_follow(reader, &again) && is_reply(again, "0 count all", "ok 1\n") && !close_log(&store) && !close_log(&again));
    WANTS(!unlink("followed") && segdag_store_follow(reader, &again) == SEGDAG_REPLACED && !again && !close_log(&reader));
}

/* ---- how far a call has come */

#define ROWS 40000 /* whose log is read in more than one part */

/* What is told, and what is done about it. */
typedef struct watched {
    int told[5];          /* how often, by stage */
    segdag_stage stage;   /* of this one */
    int cancelled;        /* this one, the first being 1, cancels; 0: none does */
    segdag_store *within; /* a call on this store is made meanwhile */
    uint64_t done;        /* what was told last */
} watched;

static bool watch(const segdag_progress *progress, void *context) {
    watched *own = context;
    segdag_id id;
    uint64_t number;
    WANTS(progress->stage >= SEGDAG_STAGE_LOCK && progress->stage <= SEGDAG_STAGE_ANSWER && (progress->whole == 0 || progress->done <= progress->whole));
    own->told[progress->stage] += 1;
    own->done = progress->done;
    name_of(0, &id);
    if (own->within) {
        WANTS(segdag_commit_number(own->within, 0, &id, &number) == SEGDAG_ARGUMENT && segdag_last_error()->code == SEGDAG_ARGUMENT);
        segdag_store_close(own->within);
    }
    return own->cancelled && progress->stage == own->stage && own->told[progress->stage] == own->cancelled;
}

static segdag_code open_watched(const char *path, uint32_t flags, uint32_t wait, watched *own, segdag_store **store) {
    segdag_open_options options = SEGDAG_OPEN_OPTIONS_INIT;
    memset(own->told, 0, sizeof own->told);
    options.flags = flags;
    options.wait = wait;
    options.progress = watch;
    options.context = own;
    return segdag_store_open(path, &options, store);
}

/* Opening is cancelled at each moment at which it tells something, and leaves the log to others. */
static void try_cancelled_opening(uint32_t flags) {
    static const struct {
        segdag_stage stage;
        int cancelled;
    } moments[] = {{SEGDAG_STAGE_READ, 1}, {SEGDAG_STAGE_READ, 2}, {SEGDAG_STAGE_LOAD, 1}};
    segdag_store *store = NULL;
    watched own = {0};
    WANTS(!open_watched("watched", flags, 0, &own, &store) && own.told[SEGDAG_STAGE_READ] > 1 && own.told[SEGDAG_STAGE_LOAD] == 1 && !own.told[SEGDAG_STAGE_LOCK]);
    WANTS(!close_log(&store));
    for (size_t i = 0; i < sizeof moments / sizeof *moments; i++) {
        own.stage = moments[i].stage;
        own.cancelled = moments[i].cancelled;
        WANTS(open_watched("watched", flags, 0, &own, &store) == SEGDAG_CANCELLED && !store);
        WANTS(!strncmp(segdag_last_error()->text, "watched: cancelled by the progress call", 39) && is_of(0, NULL));
        WANTS(!open_log("watched", 1, &store) && !close_log(&store));
    }
}

static void try_cancelled_wait(void) {
    segdag_store *store = NULL, *waits = NULL;
    watched own = {.stage = SEGDAG_STAGE_LOCK, .cancelled = 3};
    WANTS(!open_log("watched", 1, &store));
    WANTS(open_watched("watched", 0, SEGDAG_FOREVER, &own, &waits) == SEGDAG_CANCELLED && !waits && own.told[SEGDAG_STAGE_LOCK] == 3);
    WANTS(open_watched("watched", 0, 600000, &own, &waits) == SEGDAG_CANCELLED && !waits && !own.told[SEGDAG_STAGE_READ]);
    WANTS(!close_log(&store));
}

/* Between two pairs, and no call is made on the store meanwhile. */
static void try_cancelled_pairs(void) {
    segdag_store *store = NULL;
    segdag_pair pairs[5];
    segdag_distance distances[5];
    size_t done = 9;
    watched own = {.stage = SEGDAG_STAGE_ANSWER};
    WANTS(!open_watched("watched", 0, 0, &own, &store));
    for (uint64_t i = 0; i < 5; i++) {
        name_of(i, &pairs[i].left);
        name_of(9, &pairs[i].right);
    }
    WANTS(!segdag_commit_ahead_behind(store, 0, pairs, 5, distances, &done) && done == 5 && own.told[SEGDAG_STAGE_ANSWER] == 5);
    own.within = store;
    WANTS(!segdag_commit_ahead_behind(store, 0, pairs, 5, distances, &done) && done == 5 && own.told[SEGDAG_STAGE_ANSWER] == 10);
    own.cancelled = 13;
    WANTS(segdag_commit_ahead_behind(store, 0, pairs, 5, distances, &done) == SEGDAG_CANCELLED && done == 2 && tells(SEGDAG_CANCELLED, segdag_code_text(SEGDAG_CANCELLED), NULL));
    own.within = NULL;
    WANTS(!segdag_commit_ahead_behind(store, 0, pairs, 5, distances, &done) && done == 5 && distances[1].behind > distances[4].behind);
    WANTS(!close_log(&store));
}

/* A refresh, a clone and one more follower: what is cancelled did nothing, and is done later. */
static void try_cancelled_reads(void) {
    segdag_store *store = NULL, *reader = NULL, *again = NULL;
    segdag_sizes sizes = SEGDAG_SIZES_INIT;
    uint64_t count = 7, pending = 0;
    watched own = {.stage = SEGDAG_STAGE_READ};
    WANTS(!open_log("watched", 1, &store) && !open_watched("watched", SEGDAG_OPEN_FOLLOW, 0, &own, &reader));
    WANTS(!add_row(store, ROWS) && !segdag_session_flush(store, 0, NULL, 0, &sizes));
    own.cancelled = own.told[SEGDAG_STAGE_READ] + 1;
    WANTS(segdag_store_refresh(reader, &count) == SEGDAG_CANCELLED && count == 0 && !segdag_store_refresh(reader, &count) && count == 1);
    WANTS(!segdag_session_reload(reader, 0, &pending) && !segdag_session_sizes(reader, 0, &sizes) && sizes.others == 1);
    own.cancelled = own.told[SEGDAG_STAGE_READ] + 1;
    WANTS(segdag_store_follow(reader, &again) == SEGDAG_CANCELLED && !again && !segdag_store_follow(reader, &again));
    int told = own.told[SEGDAG_STAGE_READ];
    WANTS(!segdag_store_refresh(again, &count) && own.told[SEGDAG_STAGE_READ] == told && !close_log(&again) && !close_log(&reader) && !close_log(&store));
    WANTS(!open_watched("cloned", SEGDAG_OPEN_CREATE, 0, &own, &store) && !segdag_mirror_add(store, "watched"));
    own.cancelled = own.told[SEGDAG_STAGE_READ] + 1;
    WANTS(segdag_session_clone(store, 0, &sizes) == SEGDAG_CANCELLED && is_reply(store, "0 status", "ok 0 0 0\n"));
    WANTS(!segdag_session_clone(store, 0, &sizes) && sizes.master == ROWS && !close_log(&store));
}

/* Structs of a later header are taken where they say nothing more. */
static void try_later_header(void) {
    struct {
        segdag_open_options own;
        uint64_t later;
    } options = {SEGDAG_OPEN_OPTIONS_INIT, 0};
    struct {
        segdag_sizes own;
        uint64_t later;
    } sizes = {SEGDAG_SIZES_INIT, 0};
    segdag_store *store = NULL;
    options.own.size = sizeof options;
    sizes.own.size = sizeof sizes;
    WANTS(!segdag_store_open("watched", &options.own, &store) && !segdag_session_sizes(store, 0, &sizes.own) && sizes.own.master == ROWS);
    sizes.later = 1;
    WANTS(segdag_session_sizes(store, 0, &sizes.own) == SEGDAG_ARGUMENT && !close_log(&store));
    options.later = 1;
    WANTS(segdag_store_open("watched", &options.own, &store) == SEGDAG_ARGUMENT);
    options.own.size = SIZE_MAX;
    WANTS(segdag_store_open("watched", &options.own, &store) == SEGDAG_ARGUMENT);
}

static void try_progress(void) {
    segdag_store *store = NULL;
    segdag_sizes sizes = SEGDAG_SIZES_INIT;
    segdag_id head;
    WANTS(!open_log("watched", 1, &store));
    for (uint64_t row = 0; row < ROWS; row++)
        WANTS(!add_row(store, row));
    name_of(ROWS - 1, &head);
    WANTS(!segdag_session_flush(store, 0, &head, 1, &sizes) && !close_log(&store));
    try_cancelled_opening(0);
    try_cancelled_opening(SEGDAG_OPEN_FOLLOW);
    try_cancelled_wait();
    try_cancelled_pairs();
    try_cancelled_reads();
    try_later_header();
}

static int try_face(void) {
    try_codes();
    try_errors();
    try_lines();
    try_opening();
    try_cursor();
    try_follow();
    try_progress();
    return failures != 0;
}

int main(int count, char **words) {
    if (count == 2 && !chdir(words[1]))
        return try_face();
    if (count == 6 && !strcmp(words[1], "fuzz") && !chdir(words[2]))
        return fuzz(strtoull(words[3], NULL, 10), atol(words[4]), atoi(words[5]));
    fputs("clib_face: words\n", stderr);
    return 2;
}
