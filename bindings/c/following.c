/* Logs that another process writes, opened for reading alone: what it stored since is read from where the last read ended, and given to
   the core. No lock is taken and nothing is written. No proof covers it. */
#define _GNU_SOURCE
#include "store.h"
#include <errno.h>
#include <fcntl.h>
#include <stdlib.h>
#include <string.h>
#include <unistd.h>

/* How many times it is read on at most where the file has grown meanwhile. */
#define TURNS 1000

/* What came is read in pieces, of which the first has so many bytes, since what is behind the log's end may be long and means nothing. */
#define FIRST_PIECE 65536

static const uint8_t nothing = 0;

/* ---- reading */

/* The file's bytes from a place on, as far as they were read. Each is read once, and none before one in front of it. */
typedef struct piece {
    uint64_t from;
    uint8_t *bytes;
    size_t size, room;
} piece;

static uint64_t end_of(const piece *read) {
    return read->from + read->size;
}

static segdag_code size_of(const segdag_store *store, uint64_t *size) {
    if (file_size(store->fd, size))
        return SEGDAG_DISK;
    return *size > store->most_bytes ? SEGDAG_NO_LOG : SEGDAG_OK;
}

/* Reads on up to this place. SEGDAG_NO_LOG where the file ends before it. */
static segdag_code read_on(const segdag_store *store, piece *read, uint64_t end) {
    void *bytes = read->bytes;
    bool has_room = store_grow(&bytes, &read->room, (size_t)(end - read->from), 1);
    read->bytes = bytes;
    if (!has_room)
        return SEGDAG_MEMORY;
    size_t count = (size_t)(end - end_of(read));
    segdag_code code = file_read(store->fd, read->bytes + read->size, &count, end_of(read), &store->asked);
    read->size += count;
    return code == SEGDAG_OK && end_of(read) < end ? SEGDAG_NO_LOG : code;
}

/* Whether the file has been read from its front on, and begins as no log does. */
static bool is_foreign(const segdag_store *store, const piece *read) {
    return !store->takes_any && read->from == 0 && file_is_foreign(read->bytes, read->size);
}

/* Lends the core the whole file, of this size. The first byte of a fresh log, which it notes, is for the writer to write; where it finds no
   memory to note it, it says that the disk failed. */
static segdag_code load(segdag_store *store, piece *read, uint64_t size, uint32_t cache) {
    segdag_code code = read_on(store, read, size);
    if (code == SEGDAG_OK && is_foreign(store, read))
        code = SEGDAG_FOREIGN;
    if (code == SEGDAG_OK)
        code = watcher_ask(&store->asked, SEGDAG_STAGE_LOAD, size, size);
    if (code)
        return code;
    code = segdag_core_code(segdag_core_load(&store->core, read->size ? read->bytes : &nothing, read->size, cache));
    if (code == SEGDAG_OK)
        store_drop_noted(store);
    return code == SEGDAG_DISK ? SEGDAG_MEMORY : code;
}

/* Gives the core what came up to this size, in longer and longer pieces, up to one that is whole. */
static segdag_code take(segdag_store *store, piece *read, uint64_t size, uint32_t *came) {
    segdag_code code = SEGDAG_NO_LOG;
    while (code == SEGDAG_NO_LOG && *came == 0 && end_of(read) < size) {
        uint64_t end = end_of(read) + read->size + FIRST_PIECE;
        code = read_on(store, read, end < size ? end : size);
        if (code == SEGDAG_OK && is_foreign(store, read))
            code = SEGDAG_FOREIGN;
        if (code)
            return code;
        code = segdag_core_code(segdag_core_more(&store->core, read->bytes, read->size, came));
    }
    return code;
}

/* Loads the log, with room for so many names of mirrors, or takes what came behind this place, where there is room for none. A payload is on
   the disk before the gate in front of it is opened: where a gate was read open and its payload isn't there, the file is longer by now, and is
   read on. */
static segdag_code read_whole(segdag_store *store, uint64_t from, uint32_t cache, uint32_t *came) {
    piece read = {.from = from};
    uint64_t size = 0;
    segdag_code code = SEGDAG_NO_LOG;
    for (int turn = 0; code == SEGDAG_NO_LOG && *came == 0 && turn < TURNS; turn++) {
        uint64_t before = size;
        code = size_of(store, &size);
        if (code || (turn > 0 && size <= before)) {
            code = code ? code : SEGDAG_NO_LOG;
            break;
        }
        code = cache ? load(store, &read, size, cache) : take(store, &read, size, came);
    }
    free(read.bytes);
    return code;
}

/* ---- stores */

static segdag_code open_to_read(segdag_store *store, const char *path) {
    uint64_t size = 0;
    store->fd = file_open(path, O_RDONLY);
    if (store->fd < 0)
        return errno == ENOMEM ? SEGDAG_MEMORY : SEGDAG_NOT_OPENED;
    if (!file_size(store->fd, &size))
        return SEGDAG_OK;
    error_text("%.300s: not a regular file", path);
    return SEGDAG_NOT_OPENED;
}

segdag_code store_open_follower(segdag_store *store) {
    uint32_t came = 0;
    store->follows = store->only_reads = true;
    segdag_code code = open_to_read(store, store->path);
    return code ? code : read_whole(store, 0, store->cache, &came);
}

/* Whether what was taken is still there, and whether the file may have more. The log ends with a closed gate; one that has nothing yet may be
   without. */
static segdag_code look(segdag_store *store, uint64_t *end, bool *has_more) {
    uint64_t size = 0;
    segdag_code code = segdag_core_code(segdag_core_end(&store->core, end));
    if (code == SEGDAG_OK && file_is_replaced(store->fd, store->path))
        code = SEGDAG_REPLACED;
    if (code == SEGDAG_OK)
        code = size_of(store, &size);
    if (code == SEGDAG_OK && *end > 0 && size <= *end)
        code = SEGDAG_NO_LOG;
    *has_more = size > *end + 1;
    return code;
}

segdag_code store_more(segdag_store *store, uint64_t *count) {
    *count = 0;
    if (store->engine)
        return store->engine->more(store, count);
    if (!store->follows)
        return SEGDAG_OK;
    uint64_t end = 0;
    uint32_t came = 0;
    bool has_more = false;
    segdag_code code = look(store, &end, &has_more);
    if (code == SEGDAG_OK && has_more)
        code = read_whole(store, end, 0, &came);
    *count = came;
    return code == SEGDAG_DISK ? store_fail(store, code) : code;
}

segdag_code segdag_store_refresh(segdag_store *store, uint64_t *changes) {
    if (store && !changes)
        return error_refuse(SEGDAG_ARGUMENT);
    segdag_code code = store_enter(store);
    return code ? code : store_leave(store, store_more(store, changes));
}

/* ---- lines */

/* Whether this word stands behind the line's number. */
static bool has_second(const char *line, size_t size, const char *word) {
    size_t at = 0, length = strlen(word);
    while (at < size && line[at] >= '0' && line[at] <= '9')
        at++;
    if (at == 0 || size - at < 1 + length || line[at] != ' ' || memcmp(line + at + 1, word, length))
        return false;
    return size - at == 1 + length || line[at + 1 + length] == ' ';
}

static bool is_change(const char *line, size_t size) {
    static const char *const changes[] = {"flush", "strip", "clone", "pull"};
    for (size_t i = 0; i < sizeof changes / sizeof *changes; i++)
        if (has_second(line, size, changes[i]))
            return true;
    return false;
}

/* Whether a writer still has the log that it had: its file is the one at its path, and has all that was stored. */
static segdag_code look_before_change(segdag_store *store) {
    uint64_t end = 0;
    bool has_more = false;
    segdag_code code = look(store, &end, &has_more);
    return code == SEGDAG_DISK ? store_fail(store, code) : code;
}

segdag_code store_before_line(segdag_store *store, const char *line, size_t size) {
    uint64_t count = 0;
    if (store->engine)
        return store->engine->before(store, line, size);
    if (is_change(line, size))
        return store->only_reads ? SEGDAG_READ_ONLY : look_before_change(store);
    return store->follows && has_second(line, size, "reload") ? store_more(store, &count) : SEGDAG_OK;
}
