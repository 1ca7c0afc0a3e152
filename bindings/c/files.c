/* Files as the shim opens, reads and writes them. No proof covers it. */
#define _GNU_SOURCE
#include "store.h"
#include <errno.h>
#include <fcntl.h>
#include <signal.h>
#include <stdlib.h>
#include <string.h>
#include <sys/file.h>
#include <sys/stat.h>
#include <time.h>
#include <unistd.h>

/* What is opened is never one of the three standard descriptors: a process that closed its own may write there all the same. */
#define FIRST 3

/* How many links may lead to links, as the system has it. */
#define LINKS 40

/* How many times the file at a path may be another one once its lock is had. */
#define TRIES 100

/* A lock that another process has is asked for again behind so many nanoseconds. */
#define PAUSE 5000000

/* So many bytes are read before it is asked again whether to go on. */
#define READ_AT_ONCE ((size_t)1 << 20)

/* ---- descriptors */

/* Takes those of the three that are free, so that no other file gets one, by descriptors that nothing can be written to. */
static int hold_standard(int held[FIRST]) {
    int count = 0;
    for (int fd = 0; fd < FIRST; fd++) {
        if (fcntl(fd, F_GETFD) >= 0 || errno != EBADF)
            continue;
        int taken = open("/", O_PATH | O_CLOEXEC);
        if (taken >= 0)
            held[count++] = taken;
    }
    return count;
}

int file_open(const char *path, int flags) {
    int held[FIRST], count = hold_standard(held);
    int fd = open(path, flags | O_CLOEXEC | O_NONBLOCK, 0666);
    int why = errno;
    while (count > 0)
        close(held[--count]);
    if (fd >= 0 && fd < FIRST) {
        int low = fd;
        fd = fcntl(low, F_DUPFD_CLOEXEC, FIRST);
        why = errno;
        close(low);
    }
    errno = why;
    if (fd < 0)
        error_system("open");
    return fd;
}

/* ---- folders */

/* The path in which this link's target stands for the link. NULL, and errno, where there is none. */
static char *behind_link(const char *path) {
    size_t room = 256, front = 0;
    const char *slash = strrchr(path, '/');
    for (;; room *= 2) {
        char *target = malloc(room);
        ssize_t size = target ? readlink(path, target, room) : -1;
        if (size >= 0 && (size_t)size < room) {
            front = *target == '/' || !slash ? 0 : (size_t)(slash + 1 - path);
            char *whole = malloc(front + (size_t)size + 1);
            if (whole) {
                memcpy(whole, path, front);
                memcpy(whole + front, target, (size_t)size);
                whole[front + (size_t)size] = 0;
            }
            free(target);
            return whole;
        }
        int why = target ? errno : ENOMEM;
        free(target);
        if (size < 0) {
            errno = why;
            return NULL;
        }
    }
}

/* The path of the file to which this one leads, which may not be there yet, and is no link. */
static char *behind_links(const char *path) {
    char *at = strdup(path);
    for (int i = 0; at && i < LINKS; i++) {
        char *next = behind_link(at);
        if (!next && errno != ENOMEM)
            return at;
        free(at);
        at = next;
    }
    free(at);
    errno = at ? ELOOP : ENOMEM;
    error_system("readlink");
    return NULL;
}

int file_open_folder(const char *path) {
    char *file = behind_links(path);
    if (!file)
        return -1;
    char *slash = strrchr(file, '/');
    if (slash)
        slash[slash == file] = 0;
    int fd = file_open(slash ? file : ".", O_RDONLY | O_DIRECTORY), why = errno;
    free(file);
    errno = why;
    return fd;
}

int file_sync(int fd) {
    int failed;
    do
        failed = fsync(fd);
    while (failed && errno == EINTR);
    if (failed)
        error_system("fsync");
    return failed;
}

int file_sync_folder(int folder) {
    return folder >= 0 && file_sync(folder) && errno != EINVAL && errno != EACCES && errno != EPERM && errno != ENOTSUP ? -1 : 0;
}

/* ---- bytes */

segdag_code file_read(int fd, uint8_t *bytes, size_t *size, uint64_t from, const watcher *asked) {
    size_t wanted = *size, at = 0;
    segdag_code code = SEGDAG_OK;
    while (at < wanted && code == SEGDAG_OK) {
        code = watcher_ask(asked, SEGDAG_STAGE_READ, from + at, from + wanted);
        if (code)
            break;
        size_t part = wanted - at < READ_AT_ONCE ? wanted - at : READ_AT_ONCE;
        ssize_t count = pread(fd, bytes + at, part, (off_t)(from + at));
        if (count < 0 && errno == EINTR)
            continue;
        if (count < 0) {
            error_system("pread");
            code = SEGDAG_DISK;
        }
        if (count <= 0)
            break;
        at += (size_t)count;
    }
    *size = at;
    return code;
}

int file_write(int fd, const uint8_t *bytes, size_t size, uint64_t at) {
    while (size > 0) {
        ssize_t count = pwrite(fd, bytes, size, (off_t)at);
        if (count < 0 && errno == EINTR)
            continue;
        if (count <= 0) {
            error_system("pwrite");
            return -1;
        }
        bytes += count;
        size -= (size_t)count;
        at += (uint64_t)count;
    }
    return 0;
}

int file_size(int fd, uint64_t *size) {
    struct stat own;
    if (fstat(fd, &own)) {
        error_system("fstat");
        return -1;
    }
    *size = (uint64_t)own.st_size;
    return S_ISREG(own.st_mode) ? 0 : -1;
}

bool file_is_foreign(const uint8_t *bytes, size_t size) {
    return size > 1 && bytes[0] > 1;
}

/* ---- the signal of a file that may not grow */

void file_hold_signal(file_signal *held) {
    sigset_t pending;
    sigemptyset(&held->wanted);
    sigaddset(&held->wanted, SIGXFSZ);
    held->was_pending = !sigpending(&pending) && sigismember(&pending, SIGXFSZ) == 1;
    held->is_held = !pthread_sigmask(SIG_BLOCK, &held->wanted, &held->before);
}

void file_drop_signal(const file_signal *held) {
    const struct timespec now = {0, 0};
    int why = errno;
    if (held->is_held) {
        if (!held->was_pending)
            sigtimedwait(&held->wanted, NULL, &now);
        pthread_sigmask(SIG_SETMASK, &held->before, NULL);
    }
    errno = why;
}

/* ---- the file at a path */

static bool is_at(int fd, const char *path) {
    struct stat own, there;
    return !fstat(fd, &own) && !stat(path, &there) && own.st_ino == there.st_ino && own.st_dev == there.st_dev;
}

bool file_are_same(int fd, int other) {
    struct stat one, two;
    return !fstat(fd, &one) && !fstat(other, &two) && one.st_ino == two.st_ino && one.st_dev == two.st_dev;
}

bool file_is_replaced(int fd, const char *path) {
    struct stat own, there;
    if (fstat(fd, &own) || own.st_nlink == 0)
        return true;
    if (stat(path, &there))
        return errno == ENOENT || errno == ENOTDIR;
    return own.st_ino != there.st_ino || own.st_dev != there.st_dev;
}

/* Of a clock that only goes on. */
static int64_t milliseconds(void) {
    struct timespec now;
    clock_gettime(CLOCK_MONOTONIC, &now);
    return (int64_t)now.tv_sec * 1000 + now.tv_nsec / 1000000;
}

/* Takes the lock, and waits for it as long as is wished since this moment. SEGDAG_LOCKED where another store has it. */
static segdag_code lock(int fd, const file_wish *wish, int64_t began) {
    bool is_endless = wish->wait == SEGDAG_FOREVER;
    segdag_code code = SEGDAG_OK;
    while (code == SEGDAG_OK && flock(fd, (wish->may_write ? LOCK_EX : LOCK_SH) | LOCK_NB)) {
        if (errno == EINTR)
            continue;
        if (errno != EWOULDBLOCK) {
            error_system("flock");
            return SEGDAG_NOT_OPENED;
        }
        int64_t waited = milliseconds() - began;
        if (!is_endless && waited >= (int64_t)wish->wait)
            return SEGDAG_LOCKED;
        code = watcher_ask(&wish->asked, SEGDAG_STAGE_LOCK, (uint64_t)waited, is_endless ? 0 : wish->wait);
        if (code == SEGDAG_OK)
            nanosleep(&(struct timespec){0, PAUSE}, NULL);
    }
    return code;
}

/* What can't be opened is told so, but for want of memory. */
static segdag_code refused(void) {
    return errno == ENOMEM ? SEGDAG_MEMORY : SEGDAG_NOT_OPENED;
}

/* Opens the regular file that may stand at the path, or makes one, and its folder before it, if it may be a new one. */
static segdag_code open_or_make(const char *path, const file_wish *wish, file_log *log) {
    struct stat there;
    bool is_there = !stat(path, &there);
    if (is_there && !S_ISREG(there.st_mode)) {
        error_text("%.300s: not a regular file", path);
        return SEGDAG_NOT_OPENED;
    }
    if (!is_there && (errno != ENOENT || !wish->may_make)) {
        error_system("stat");
        return SEGDAG_NOT_OPENED;
    }
    if (wish->may_write && (!is_there || there.st_size == 0)) {
        log->folder = file_open_folder(path);
        if (log->folder < 0 && errno != EACCES)
            return refused();
    }
    log->fd = file_open(path, (wish->may_write ? O_RDWR : O_RDONLY) | (is_there ? 0 : O_CREAT));
    return log->fd < 0 ? refused() : SEGDAG_OK;
}

segdag_code file_open_locked(const char *path, const file_wish *wish, file_log *log) {
    int64_t began = milliseconds();
    for (int i = 0; i < TRIES; i++) {
        *log = (file_log){-1, -1};
        segdag_code code = open_or_make(path, wish, log);
        if (code == SEGDAG_OK)
            code = lock(log->fd, wish, began);
        if (code == SEGDAG_OK && is_at(log->fd, path))
            return SEGDAG_OK;
        file_close(log);
        if (code)
            return code;
    }
    return SEGDAG_LOCKED;
}

void file_close(file_log *log) {
    if (log->folder >= 0)
        close(log->folder);
    if (log->fd >= 0)
        close(log->fd);
    *log = (file_log){-1, -1};
}
