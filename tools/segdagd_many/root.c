/* Names below the root, and the stores that they open. No link is taken on the way, and nothing above the root is reached. */
#include "many.h"
#include <errno.h>
#include <fcntl.h>
#include <linux/openat2.h>
#include <stdio.h>
#include <stdlib.h>
#include <string.h>
#include <sys/syscall.h>
#include <unistd.h>

/* A store takes about so many bytes, and so many for each of its log. */
#define FIGURE 81920
#define FIGURE_OF_BYTE 2

/* Names of mirrors that a store keeps. */
#define CACHE 4096

/* A name is parts of which none is empty, `.` or `..`, with a slash between two. */
bool name_is_fine(const char *name, size_t size) {
    if (size == 0 || size >= NAME_ROOM || memchr(name, 0, size))
        return false;
    for (size_t begin = 0; begin <= size;) {
        const char *slash = memchr(name + begin, '/', size - begin);
        size_t end = slash ? (size_t)(slash - name) : size, part = end - begin;
        if (part == 0 || part > 255 || (name[begin] == '.' && (part == 1 || (part == 2 && name[begin + 1] == '.'))))
            return false;
        begin = end + 1;
    }
    return true;
}

/* The folder of a name, by which alone its path goes then, and the name in it. */
static int folder_of(const char *name, const char **base) {
    char folder[NAME_ROOM] = ".";
    const char *slash = strrchr(name, '/');
    if (slash) {
        memcpy(folder, name, (size_t)(slash - name));
        folder[slash - name] = 0;
    }
    *base = slash ? slash + 1 : name;
    struct open_how how = {.flags = O_PATH | O_DIRECTORY | O_CLOEXEC, .resolve = RESOLVE_BENEATH | RESOLVE_NO_SYMLINKS | RESOLVE_NO_MAGICLINKS};
    return (int)syscall(SYS_openat2, many_root, folder, &how, sizeof how);
}

static bool is_file(int folder, const char *base, struct stat *found) {
    return !fstatat(folder, base, found, AT_SYMLINK_NOFOLLOW) && S_ISREG(found->st_mode);
}

bool root_finds(const char *name) {
    const char *base;
    struct stat found;
    if (root_is_database())
        return false;
    int folder = folder_of(name, &base);
    bool is_there = folder >= 0 && !fstatat(folder, base, &found, AT_SYMLINK_NOFOLLOW);
    if (folder >= 0)
        close(folder);
    return is_there;
}

bool root_has(const handle *open) {
    const char *base;
    struct stat found;
    if (root_is_database())
        return true;
    int folder = folder_of(open->log->name, &base);
    bool is_it = folder >= 0 && is_file(folder, base, &found) && found.st_dev == open->device && found.st_ino == open->file;
    if (folder >= 0)
        close(folder);
    return is_it;
}

uint64_t end_of(const handle *open) {
    uint64_t at = 0;
    segdag_core_end(&open->store->core, &at);
    return at;
}

size_t figure_of(const handle *open) {
    return FIGURE + FIGURE_OF_BYTE * ((size_t)end_of(open) + open->mirrors);
}

void root_measure_mirrors(handle *open) {
    struct stat found;
    open->mirrors = 0;
    for (size_t i = 0; i < open->store->count; i++)
        if (open->store->mirrors[i].path && !stat(open->store->mirrors[i].path, &found) && S_ISREG(found.st_mode))
            open->mirrors += (size_t)found.st_size;
}

static segdag_code open_file(handle *made, const char *base, uint32_t cache, bool makes) {
    char path[NAME_ROOM];
    struct stat before, behind;
    bool was_there = !fstatat(made->folder, base, &before, AT_SYMLINK_NOFOLLOW);
    if (was_there ? !S_ISREG(before.st_mode) || rules_have(&before) : !makes)
        return SEGDAG_NOT_OPENED;
    snprintf(path, sizeof path, "/proc/self/fd/%d/%s", made->folder, base);
    segdag_open_options how = {.size = sizeof how, .flags = made->follows ? SEGDAG_OPEN_FOLLOW : makes ? SEGDAG_OPEN_CREATE : 0, .cache = cache};
    segdag_code status = segdag_store_open(path, &how, &made->store);
    if (status)
        return status;
    if (!is_file(made->folder, base, &behind) || (was_there && (before.st_ino != behind.st_ino || before.st_dev != behind.st_dev)))
        return SEGDAG_REPLACED;
    made->device = behind.st_dev;
    made->file = behind.st_ino;
    return SEGDAG_OK;
}

/* Opens the store of a log, with its mirrors, of whose names it then keeps some. */
static segdag_code opened(handle *made, bool makes) {
    const char *base;
    uint32_t cache = rules_have_mirror(made->log->name) ? CACHE : 1;
    segdag_code status = SEGDAG_NOT_OPENED;
    if (root_is_database())
        status = database_open(made, cache, makes);
    else if ((made->folder = folder_of(made->log->name, &base)) >= 0)
        status = open_file(made, base, cache, makes);
    if (status == SEGDAG_OK && cache > 1) {
        status = rules_add_mirrors(made->log->name, made->store);
        root_measure_mirrors(made);
    }
    return status;
}

void root_close(handle *open) {
    if (open->store)
        segdag_store_close(open->store);
    if (open->folder >= 0)
        close(open->folder);
    free(open);
}

segdag_code root_open(kept_log *log, bool follows, bool makes, handle **made) {
    handle *open = calloc(1, sizeof *open);
    if (!open)
        return SEGDAG_MEMORY;
    open->log = log;
    open->follows = follows;
    open->rules = atomic_load(&rules_version);
    open->folder = -1;
    segdag_code status = opened(open, makes);
    if (status == SEGDAG_OK) {
        *made = open;
        return SEGDAG_OK;
    }
    root_close(open);
    return status;
}
