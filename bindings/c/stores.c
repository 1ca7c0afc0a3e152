/* Logs in files: what crates/file_disk is to the program. No proof covers it: it has to lend the core what the file has, and to perform
   each write and sync that the core notes, in order, before it answers. */
#define _GNU_SOURCE
#include "store.h"
#include <errno.h>
#include <stdlib.h>
#include <string.h>
#include <sys/file.h>
#include <sys/stat.h>
#include <unistd.h>

/* How many names of mirrors there is room for where nothing is said. */
#define USUAL_CACHE 4096

/* A struct of a later header isn't longer than this. */
#define MOST_STRUCT 1024

static const uint8_t nothing = 0;

/* ---- what the core notes */

/* Writes the piece that is noted next, some of it at a time. */
static int write_piece(segdag_store *store, uint64_t at, size_t size) {
    uint8_t part[65536];
    for (size_t from = 0; from < size;) {
        size_t count = 0;
        if (segdag_core_piece(&store->core, from, part, sizeof part, &count) || count == 0)
            return -1;
        if (file_write(store->fd, part, count, at + from))
            return -1;
        from += count;
    }
    return 0;
}

/* Performs what was noted, in order, up to what fails. */
static int perform_all(segdag_store *store) {
    for (;;) {
        uint32_t kind = SEGDAG_CORE_NOTHING;
        uint64_t at = 0;
        size_t size = 0;
        if (segdag_core_next(&store->core, &kind, &at, &size))
            return -1;
        if (kind == SEGDAG_CORE_NOTHING)
            return 0;
        if (kind == SEGDAG_CORE_SYNC ? file_sync(store->fd) : write_piece(store, at, size))
            return -1;
        segdag_core_performed(&store->core);
    }
}

int store_perform(segdag_store *store) {
    file_signal held;
    uint32_t kind = SEGDAG_CORE_NOTHING;
    uint64_t at = 0;
    size_t size = 0;
    if (segdag_core_next(&store->core, &kind, &at, &size))
        return -1;
    if (kind == SEGDAG_CORE_NOTHING)
        return 0;
    file_hold_signal(&held);
    int failed = perform_all(store);
    file_drop_signal(&held);
    return failed;
}

bool store_drop_noted(segdag_store *store) {
    for (bool had_any = false;; had_any = true) {
        uint32_t kind = SEGDAG_CORE_NOTHING;
        uint64_t at = 0;
        size_t size = 0;
        if (segdag_core_next(&store->core, &kind, &at, &size) || kind == SEGDAG_CORE_NOTHING)
            return had_any;
        segdag_core_performed(&store->core);
    }
}

/* ---- processes and threads */

/* How often this process was forked off since the library came. It is counted in the child alone. */
static unsigned forks;
static bool counts_forks;
static pthread_once_t once = PTHREAD_ONCE_INIT;

static void count_fork(void) {
    forks += 1;
}

static void watch_forks(void) {
    counts_forks = !pthread_atfork(NULL, NULL, count_fork);
}

static bool is_of_this_process(const segdag_store *store) {
    return store->forks == forks;
}

segdag_code store_enter(segdag_store *store) {
    error_begin();
    if (!store || !is_of_this_process(store))
        return error_end(store ? SEGDAG_FORKED : SEGDAG_CLOSED, NULL);
    if (pthread_mutex_lock(&store->turn))
        return error_end(SEGDAG_ARGUMENT, NULL);
    return store->core.is_open ? SEGDAG_OK : store_leave(store, SEGDAG_CLOSED);
}

segdag_code store_leave(segdag_store *store, segdag_code code) {
    bool is_of_file = code == SEGDAG_DISK || code == SEGDAG_NO_LOG || code == SEGDAG_REPLACED || code == SEGDAG_FOREIGN || code == SEGDAG_READ_ONLY;
    error_end(code, is_of_file ? store->path : NULL);
    pthread_mutex_unlock(&store->turn);
    return code;
}

/* ---- stores */

/* The path from the root on, so that it is the same file's when the process is in another folder. */
static char *whole_path(const char *path) {
    char *folder = *path == '/' ? NULL : get_current_dir_name();
    if (!folder)
        return *path != '/' && errno == ENOMEM ? NULL : strdup(path);
    size_t size = strlen(folder);
    char *whole = malloc(size + strlen(path) + 2);
    if (whole) {
        memcpy(whole, folder, size);
        whole[size] = '/';
        strcpy(whole + size + 1, path);
    }
    free(folder);
    return whole;
}

/* A lock that a thread which has it is refused: in a progress call no call is made on its store. */
static int make_turn(pthread_mutex_t *turn) {
    pthread_mutexattr_t kind;
    int failed = pthread_mutexattr_init(&kind);
    if (failed)
        return failed;
    pthread_mutexattr_settype(&kind, PTHREAD_MUTEX_ERRORCHECK);
    failed = pthread_mutex_init(turn, &kind);
    pthread_mutexattr_destroy(&kind);
    return failed;
}

segdag_store *store_make(const char *path) {
    pthread_once(&once, watch_forks);
    segdag_store *made = counts_forks ? calloc(1, sizeof *made) : NULL;
    if (!made)
        return NULL;
    made->path = path ? whole_path(path) : NULL;
    if ((path && !made->path) || make_turn(&made->turn)) {
        free(made->path);
        free(made);
        return NULL;
    }
    made->process = getpid();
    made->forks = forks;
    made->most_bytes = SEGDAG_LOG_BYTES;
    made->fd = -1;
    return made;
}

segdag_code store_fail(segdag_store *store, segdag_code code) {
    segdag_core_close(&store->core);
    if (store->place)
        store->engine->close(store);
    store->place = NULL;
    /* A child that was forked off may have the file, too: the lock ends here all the same. */
    if (store->fd >= 0 && !store->follows && store->process == getpid())
        flock(store->fd, LOCK_UN);
    if (store->fd >= 0)
        close(store->fd);
    store->fd = -1;
    return code;
}

/* Reads the whole file, of this size. What it begins with has to be a log's, or anything where that is wanted. */
static segdag_code read_log(const segdag_store *store, uint8_t *bytes, size_t size) {
    size_t count = size;
    segdag_code code = file_read(store->fd, bytes, &count, 0, &store->asked);
    if (code == SEGDAG_OK && count < size)
        code = SEGDAG_DISK;
    return code == SEGDAG_OK && !store->takes_any && file_is_foreign(bytes, size) ? SEGDAG_FOREIGN : code;
}

/* Lends the core what the file has, and performs what it notes of a new log. What is read is sure: a write that an earlier run left
   behind, and the entry of a file that has nothing yet, are synced first. */
static segdag_code load(segdag_store *store, int folder) {
    uint64_t whole = 0;
    if (file_size(store->fd, &whole) || (!store->only_reads && (file_sync(store->fd) || (whole == 0 && file_sync_folder(folder)))))
        return SEGDAG_DISK;
    if (whole > store->most_bytes)
        return SEGDAG_NO_LOG;
    size_t size = (size_t)whole;
    uint8_t *bytes = size ? malloc(size) : NULL;
    if (size && !bytes)
        return SEGDAG_MEMORY;
    segdag_code code = read_log(store, bytes, size);
    if (code == SEGDAG_OK)
        code = watcher_ask(&store->asked, SEGDAG_STAGE_LOAD, whole, whole);
    if (code == SEGDAG_OK)
        code = segdag_core_code(segdag_core_load(&store->core, size ? bytes : &nothing, size, store->cache));
    free(bytes);
    if (code == SEGDAG_OK && store->only_reads)
        store_drop_noted(store);
    else if (code == SEGDAG_OK && store_perform(store))
        code = SEGDAG_DISK;
    return code;
}

static segdag_code open_store(segdag_store *made, const char *path, const segdag_open_options *options) {
    watcher asked = {options->progress, options->context};
    file_wish wish = {!(options->flags & SEGDAG_OPEN_READ_ONLY), options->flags & SEGDAG_OPEN_CREATE, options->wait, asked};
    file_log log;
    made->asked = asked;
    made->cache = options->cache ? options->cache : USUAL_CACHE;
    made->takes_any = options->flags & SEGDAG_OPEN_ANY_FILE;
    if (options->most_bytes)
        made->most_bytes = options->most_bytes;
    if (options->flags & SEGDAG_OPEN_FOLLOW)
        return store_open_follower(made);
    made->only_reads = !wish.may_write;
    segdag_code code = file_open_locked(path, &wish, &log);
    if (code)
        return code;
    made->fd = log.fd;
    code = load(made, log.folder);
    log.fd = -1;
    file_close(&log);
    return code;
}

bool store_takes_size(const size_t *size, size_t known) {
    const unsigned char *bytes = (const unsigned char *)size;
    if (*size < known || *size > MOST_STRUCT)
        return false;
    for (size_t at = known; at < *size; at++)
        if (bytes[at])
            return false;
    return true;
}

/* Whether these can be meant together. */
static bool are_options(const segdag_open_options *options) {
    if (!store_takes_size(&options->size, sizeof *options))
        return false;
    uint32_t flags = options->flags, ways = flags & (SEGDAG_OPEN_CREATE | SEGDAG_OPEN_READ_ONLY | SEGDAG_OPEN_FOLLOW);
    return options->cache <= SEGDAG_MOST_CACHE && options->most_bytes <= SEGDAG_LOG_BYTES && flags < 2 * SEGDAG_OPEN_ANY_FILE && (ways & (ways - 1)) == 0;
}

segdag_code segdag_store_open(const char *path, const segdag_open_options *options, segdag_store **store) {
    static const segdag_open_options usual = SEGDAG_OPEN_OPTIONS_INIT;
    if (store)
        *store = NULL;
    if (!store || !path || (options && !are_options(options)))
        return error_refuse(SEGDAG_ARGUMENT);
    error_begin();
    segdag_store *made = store_make(path);
    if (!made)
        return error_end(SEGDAG_MEMORY, path);
    segdag_code code = error_end(open_store(made, path, options ? options : &usual), path);
    if (code) {
        segdag_store_close(made);
        return code;
    }
    *store = made;
    return code;
}

/* Opens a follower of the log of this store, beside the same mirrors. */
static segdag_code follow(const segdag_store *store, segdag_store *made) {
    made->cache = store->cache;
    made->takes_any = store->takes_any;
    made->most_bytes = store->most_bytes;
    made->asked = store->asked;
    segdag_code code = file_is_replaced(store->fd, store->path) ? SEGDAG_REPLACED : store_open_follower(made);
    if (code == SEGDAG_OK && !file_are_same(store->fd, made->fd))
        code = SEGDAG_REPLACED;
    for (size_t i = 0; code == SEGDAG_OK && i < store->count; i++)
        if (store->mirrors[i].path)
            code = store_add_mirror(made, store->mirrors[i].path, store->mirrors[i].kind);
    made->asked = (watcher){NULL, NULL};
    return code;
}

segdag_code segdag_store_follow(segdag_store *store, segdag_store **follower) {
    if (follower)
        *follower = NULL;
    if (store && (!follower || store->engine))
        return error_refuse(SEGDAG_ARGUMENT);
    segdag_code code = store_enter(store);
    if (code)
        return code;
    segdag_store *made = store_make(store->path);
    code = store_leave(store, made ? follow(store, made) : SEGDAG_MEMORY);
    if (code) {
        segdag_store_close(made);
        return code;
    }
    *follower = made;
    return code;
}

void segdag_store_close(segdag_store *store) {
    if (!store)
        return;
    if (!is_of_this_process(store)) {
        /* The core may have been in the middle of a call when the process was forked off: it is left. The lock is the other process's. */
        if (store->fd >= 0)
            close(store->fd);
        return;
    }
    if (pthread_mutex_lock(&store->turn)) {
        error_refuse(SEGDAG_ARGUMENT);
        return;
    }
    store_fail(store, SEGDAG_OK);
    pthread_mutex_unlock(&store->turn);
    pthread_mutex_destroy(&store->turn);
    segdag_text_free(&store->reply);
    store_free_mirrors(store);
    free(store->path);
    free(store);
}

bool store_grow(void **bytes, size_t *room, size_t wanted, size_t item) {
    if (wanted <= *room)
        return true;
    size_t more = *room + *room / 2 > wanted ? *room + *room / 2 : wanted;
    void *grown = more <= SIZE_MAX / item ? realloc(*bytes, more * item) : NULL;
    if (!grown)
        return false;
    *bytes = grown;
    *room = more;
    return true;
}
