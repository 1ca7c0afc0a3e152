/* Mirrors in files: their bytes are read as a whole, without a lock, and given to the core. No proof covers it. */
#define _GNU_SOURCE
#include "store.h"
#include <errno.h>
#include <fcntl.h>
#include <stdlib.h>
#include <string.h>
#include <unistd.h>

/* How many times a file that has grown meanwhile is read on. */
#define TURNS 1000

/* What stands in front of the path of a bundle. */
#define BUNDLE "bundle:"

static const uint8_t nothing = 0;

/* The size of the regular file; SEGDAG_NO_LOG where it is none, or too long. */
static segdag_code size_of(int fd, size_t *size) {
    uint64_t whole = 0;
    if (file_size(fd, &whole) || whole > SEGDAG_LOG_BYTES)
        return SEGDAG_NO_LOG;
    *size = (size_t)whole;
    return SEGDAG_OK;
}

/* Reads the regular file, and makes *bytes its bytes. SEGDAG_NO_LOG where there are none to be had, as in a file that is too long.
   SEGDAG_CANCELLED where it isn't to go on.
   A process that has the log open may extend it meanwhile. A payload, and the closed gate behind it, are on the disk before the gate in
   front of it is opened: where a gate was read open, its payload stands within the size that is asked then. So it is read on behind
   what was read, for as long as it grows; no byte is read before one in front of it, and none twice. */
static segdag_code read_open(int fd, uint8_t **bytes, size_t *size, const watcher *asked) {
    size_t room = 0, end = 0;
    *size = 0;
    segdag_code code = size_of(fd, &end);
    for (int turn = 0; code == SEGDAG_OK && turn < TURNS && (turn == 0 || end > *size); turn++) {
        void *grown = *bytes;
        bool has_room = store_grow(&grown, &room, end ? end : 1, 1);
        *bytes = grown;
        if (!has_room)
            return SEGDAG_MEMORY;
        size_t count = end - *size;
        code = file_read(fd, *bytes + *size, &count, *size, asked);
        if (code == SEGDAG_DISK || (code == SEGDAG_OK && count < end - *size))
            code = SEGDAG_NO_LOG;
        *size = end;
        if (code == SEGDAG_OK)
            code = size_of(fd, &end);
    }
    return code;
}

static segdag_code read_file(const char *path, uint8_t **bytes, size_t *size, const watcher *asked) {
    int fd = file_open(path, O_RDONLY);
    if (fd < 0)
        return errno == ENOMEM ? SEGDAG_MEMORY : SEGDAG_NO_LOG;
    segdag_code code = read_open(fd, bytes, size, asked);
    close(fd);
    return code;
}

/* Gives the core what the mirror's file has now, or that it isn't there. One that the core has dropped is let go. */
static segdag_code read_mirror(segdag_store *store, size_t number, const watcher *asked) {
    store_mirror *mirror = &store->mirrors[number];
    uint8_t *bytes = NULL;
    size_t size = 0;
    segdag_code code = read_file(mirror->path, &bytes, &size, asked);
    bool is_there = code == SEGDAG_OK && (mirror->kind == SEGDAG_CORE_BUNDLE || !file_is_foreign(bytes, size));
    if (code != SEGDAG_MEMORY && code != SEGDAG_CANCELLED)
        code = segdag_core_code(segdag_core_renew_mirror(&store->core, (uint32_t)number, is_there, is_there ? bytes : &nothing, is_there ? size : 0));
    free(bytes);
    if (code != SEGDAG_ARGUMENT)
        return code;
    free(mirror->path);
    mirror->path = NULL;
    return SEGDAG_OK;
}

segdag_code store_read_mirrors(segdag_store *store) {
    for (size_t number = 0; number < store->count; number++) {
        segdag_code code = store->mirrors[number].path ? read_mirror(store, number, &store->asked) : SEGDAG_OK;
        if (code)
            return code;
    }
    return SEGDAG_OK;
}

bool store_asks_again(segdag_store *store, segdag_code code) {
    return code == SEGDAG_REMOTE && store_read_mirrors(store) == SEGDAG_OK;
}

void store_free_mirrors(segdag_store *store) {
    for (size_t number = 0; number < store->count; number++)
        free(store->mirrors[number].path);
    free(store->mirrors);
}

/* Puts a mirror behind the others, whose file isn't read so far. */
static segdag_code put_mirror(segdag_store *store, char *path, segdag_core_mirror kind) {
    void *mirrors = store->mirrors;
    bool has_room = store_grow(&mirrors, &store->room, store->count + 1, sizeof *store->mirrors);
    store->mirrors = mirrors;
    if (!has_room)
        return SEGDAG_MEMORY;
    segdag_code code = segdag_core_code(segdag_core_add_mirror(&store->core, (uint32_t)store->count, kind));
    if (code == SEGDAG_OK)
        store->mirrors[store->count++] = (store_mirror){path, kind};
    return code;
}

segdag_code store_add_mirror(segdag_store *store, const char *path, segdag_core_mirror kind) {
    char *kept = strdup(path);
    if (!kept)
        return SEGDAG_MEMORY;
    segdag_code code = put_mirror(store, kept, kind);
    if (code) {
        free(kept);
        return code;
    }
    /* It is there by now, and can't be taken back: so nobody is asked. */
    read_mirror(store, store->count - 1, &(watcher){NULL, NULL});
    return SEGDAG_OK;
}

segdag_code segdag_mirror_add(segdag_store *store, const char *word) {
    if (store && (!word || !strncmp(word, "pipe:", 5)))
        return error_refuse(SEGDAG_ARGUMENT);
    segdag_code code = store_enter(store);
    if (code)
        return code;
    bool is_bundle = !strncmp(word, BUNDLE, strlen(BUNDLE));
    return store_leave(store, store_add_mirror(store, is_bundle ? word + strlen(BUNDLE) : word, is_bundle ? SEGDAG_CORE_BUNDLE : SEGDAG_CORE_LOG));
}
