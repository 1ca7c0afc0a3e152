/* What tests/clib.sh runs at the library's edges, by the header alone: `clib_edges FOLDER` tries, in a new folder, standard descriptors that
   are closed, files that are no logs, logs that are removed or moved under their writer, links, forks, locks that can't be had, limits of the
   process, the ways to open, and many threads over one store. */
#define _GNU_SOURCE
#include "clib.h"
#include <errno.h>
#include <fcntl.h>
#include <pthread.h>
#include <signal.h>
#include <stdlib.h>
#include <sys/file.h>
#include <sys/resource.h>
#include <sys/stat.h>
#include <sys/syscall.h>
#include <sys/wait.h>
#include <time.h>
#include <unistd.h>

/* ---- the system, as far as it is to be seen or to fail */

/* Which folder was synced last. */
static ino_t synced_folder;

int fsync(int fd) {
    struct stat own;
    if (!fstat(fd, &own) && S_ISDIR(own.st_mode))
        synced_folder = own.st_ino;
    return (int)syscall(SYS_fsync, fd);
}

/* How each lock fails; 0 where it doesn't. */
static int lock_fails;

int flock(int fd, int kind) {
    if (lock_fails && kind != LOCK_UN) {
        errno = lock_fails;
        return -1;
    }
    return (int)syscall(SYS_flock, fd, kind);
}

/* ---- files */

static size_t read_file(const char *path, char *bytes, size_t room) {
    FILE *file = fopen(path, "rb");
    size_t size = file ? fread(bytes, 1, room, file) : SIZE_MAX;
    if (file)
        fclose(file);
    return size;
}

static void write_file(const char *path, const char *bytes, size_t size) {
    FILE *file = fopen(path, "wb");
    WANTS(file && fwrite(bytes, 1, size, file) == size && fclose(file) == 0);
}

static bool has_bytes(const char *path, const char *bytes, size_t size) {
    static char now[1 << 16];
    return read_file(path, now, sizeof now) == size && !memcmp(now, bytes, size);
}

static bool is_file(const char *path) {
    return access(path, F_OK) == 0;
}

/* ---- stores */

static segdag_code open_by(const char *path, uint32_t flags, uint32_t wait, segdag_store **store) {
    segdag_open_options options = SEGDAG_OPEN_OPTIONS_INIT;
    options.flags = flags;
    options.wait = wait;
    return segdag_store_open(path, &options, store);
}

/* Adds the row with this number and stores it. */
static segdag_code put(segdag_store *store, uint64_t number) {
    segdag_sizes sizes = SEGDAG_SIZES_INIT;
    segdag_id name;
    segdag_code status = add_row(store, number);
    name_of(number, &name);
    return status ? status : segdag_session_flush(store, 0, &name, 1, &sizes);
}

/* Whether a log can be opened, and has so many rows. */
static bool has_rows(const char *path, uint64_t rows) {
    segdag_store *store = NULL;
    segdag_sizes sizes = SEGDAG_SIZES_INIT;
    bool has = !open_log(path, 1, &store) && !segdag_session_sizes(store, 0, &sizes) && sizes.master == rows;
    return !close_log(&store) && has;
}

/* A new log with so many rows. */
static void make_log(const char *path, uint64_t rows) {
    segdag_store *store = NULL;
    unlink(path);
    WANTS(!open_log(path, 1, &store));
    for (uint64_t number = 0; number < rows; number++)
        WANTS(!put(store, number));
    WANTS(!close_log(&store));
}

/* ---- other processes */

/* What a child does; it ends with 0 where all wishes came true. */
typedef int deed(int number);

/* The status with which a child ends that does this. */
static int in_child(deed *does, int number) {
    int status = -1;
    fflush(NULL);
    pid_t child = fork();
    if (child == 0) {
        failures = 0;
        int end = does(number);
        _exit(end ? end : failures != 0);
    }
    waitpid(child, &status, 0);
    return status;
}

/* ---- standard descriptors that are closed */

/* Stores rows, and writes to all three descriptors meanwhile, those among them that the bits name being closed. */
static int store_without(int closed) {
    static const char text[] = "hello, world: this is for the terminal\n";
    segdag_store *store = NULL, *reader = NULL;
    uint64_t number = 0, pending = 0;
    int terminal = open("/dev/null", O_RDWR);
    for (int fd = 0; fd < 3; fd++)
        if (closed >> fd & 1 ? close(fd) : dup2(terminal, fd) != fd)
            return 1;
    if (open_log("closed", 16, &store) || segdag_mirror_add(store, "mirror") || follow_log("closed", 1, &reader))
        return 2;
    for (int fd = 0; fd < 3; fd++)
        if (closed >> fd & 1 && fcntl(fd, F_GETFD) >= 0)
            return 3;
    if (clone_log(store, 0, &number) || number != 3)
        return 4;
    for (number = 3; number < 6; number++) {
        for (int fd = 0; fd < 3; fd++)
            if (write(fd, text, sizeof text) < 0 && errno != EBADF)
                return 5;
        if (put(store, number) || segdag_session_reload(reader, 0, &pending))
            return 6;
    }
    return close_log(&store) || close_log(&reader) ? 7 : 0;
}

static void try_closed(void) {
    make_log("mirror", 3);
    for (int closed = 0; closed < 8; closed++) {
        unlink("closed");
        WANTS(in_child(store_without, closed) == 0);
        WANTS(has_rows("closed", 6));
    }
    WANTS(has_rows("mirror", 3));
}

/* ---- files that are no logs */

/* No call takes such a file for a log, or changes it; one that is told to does. */
static void try_foreign(const char *bytes, size_t size) {
    segdag_store *store = NULL;
    uint64_t number = 0;
    write_file("foreign", bytes, size);
    WANTS(open_log("foreign", 1, &store) == SEGDAG_FOREIGN && !store && follow_log("foreign", 1, &store) == SEGDAG_FOREIGN && !store);
    WANTS(open_by("foreign", SEGDAG_OPEN_READ_ONLY, 0, &store) == SEGDAG_FOREIGN && has_bytes("foreign", bytes, size));
    unlink("beside");
    WANTS(!open_log("beside", 1, &store) && !segdag_mirror_add(store, "foreign"));
    WANTS(clone_log(store, 0, &number) == SEGDAG_REMOTE && is_reply(store, "0 clone", "err remote 1\n"));
    WANTS(!segdag_mirror_add(store, "mirror") && !clone_log(store, 0, &number) && number == 3 && !close_log(&store));
    WANTS(!open_by("foreign", SEGDAG_OPEN_ANY_FILE | SEGDAG_OPEN_FOLLOW, 0, &store) && !close_log(&store) && has_bytes("foreign", bytes, size));
    WANTS(!open_by("foreign", SEGDAG_OPEN_ANY_FILE, 0, &store) && !put(store, 0) && !close_log(&store) && has_rows("foreign", 1));
    WANTS(!strcmp(segdag_code_name(SEGDAG_FOREIGN), "foreign"));
}

/* What a crash may leave of a log, and a file of one byte, are logs in which nothing is stored. */
static void try_fresh(const char *bytes, size_t size) {
    write_file("fresh", bytes, size);
    WANTS(has_rows("fresh", 0));
    segdag_store *store = NULL;
    WANTS(!open_log("fresh", 1, &store) && !put(store, 0) && !close_log(&store) && has_rows("fresh", 1));
}

/* A follower of a log that has nothing yet, over which something else is written. */
static void try_foreign_later(void) {
    segdag_store *reader = NULL;
    uint64_t count = 0;
    write_file("later", "", 0);
    WANTS(!follow_log("later", 1, &reader));
    write_file("later", "# A page\n", 9);
    WANTS(segdag_store_refresh(reader, &count) == SEGDAG_FOREIGN && count == 0 && segdag_session_reload(reader, 0, &count) == SEGDAG_FOREIGN);
    WANTS(!close_log(&reader));
}

static void try_files(void) {
    static const char page[] = "# A page\n\nIt has words.\n", program[] = "\177ELF\2\1\1", bundle[] = "SEGBNDL1\0\0\0\0\0\0\0\0";
    make_log("mirror", 3);
    try_foreign(page, sizeof page - 1);
    try_foreign(program, sizeof program - 1);
    try_foreign(bundle, sizeof bundle - 1);
    try_foreign("\2\0", 2);
    try_fresh("", 0);
    try_fresh("x", 1);
    try_fresh("\0", 1);
    try_fresh("\0a change that was cut", 22);
    try_foreign_later();
}

/* ---- logs that go away under their writer */

/* Each change says that another file stands there, or none, and nothing becomes of it. */
static void are_refused(segdag_store *store, segdag_code wanted) {
    segdag_text reply = {0};
    segdag_sizes sizes = SEGDAG_SIZES_INIT;
    segdag_id name;
    uint64_t number = 0;
    name_of(0, &name);
    WANTS(!add_row(store, 3) && segdag_session_flush(store, 0, NULL, 0, &sizes) == wanted && segdag_store_line(store, "0 flush", 7, &reply) == wanted);
    WANTS(segdag_session_strip(store, 1, &name, 1, &sizes) == wanted && clone_log(store, 1, &number) == wanted);
    WANTS(segdag_session_pull(store, 1, &sizes) == wanted && is_reply(store, "0 status", "ok 3 0 1\n"));
    WANTS(!segdag_commit_number(store, 0, &name, &number) && number == 0 && reply.size == 0);
    segdag_text_free(&reply);
}

static void try_replaced(void) {
    segdag_store *store = NULL, *second = NULL;
    make_log("gone", 3);
    WANTS(!open_log("gone", 1, &store) && !unlink("gone"));
    are_refused(store, SEGDAG_REPLACED);
    WANTS(!open_log("gone", 1, &second) && !put(second, 0) && !close_log(&second));
    WANTS(!close_log(&store) && has_rows("gone", 1));
    make_log("gone", 3);
    make_log("other", 5);
    WANTS(!open_log("gone", 1, &store) && !rename("other", "gone"));
    are_refused(store, SEGDAG_REPLACED);
    WANTS(!close_log(&store) && has_rows("gone", 5));
    make_log("gone", 3);
    WANTS(!mkdir("below", 0777) && !open_log("gone", 1, &store) && !chdir("below") && !put(store, 3));
    WANTS(!chdir("..") && !put(store, 4) && !rename("gone", "moved"));
    WANTS(!add_row(store, 5) && segdag_session_flush(store, 0, NULL, 0, &(segdag_sizes)SEGDAG_SIZES_INIT) == SEGDAG_REPLACED && !close_log(&store) && has_rows("moved", 5));
    make_log("gone", 3);
    WANTS(!open_log("gone", 1, &store) && !truncate("gone", 50));
    are_refused(store, SEGDAG_NO_LOG);
    WANTS(!close_log(&store) && !rmdir("below"));
}

/* ---- links, forks and locks */

static void try_link(void) {
    segdag_store *store = NULL;
    struct stat folder;
    WANTS(!mkdir("far", 0777) && !mkdir("near", 0777) && !symlink("near/link", "link") && !symlink("../far/log", "near/link"));
    WANTS(!stat("far", &folder) && !open_log("link", 1, &store) && synced_folder == folder.st_ino);
    WANTS(!put(store, 0) && !close_log(&store) && has_rows("far/log", 1));
    WANTS(!symlink("round", "around") && !symlink("around", "round") && open_log("round", 1, &store) == SEGDAG_NOT_OPENED);
    WANTS(!symlink("nowhere/log", "lost") && open_log("lost", 1, &store) == SEGDAG_NOT_OPENED && !is_file("nowhere"));
}

/* The store that is used behind a fork. */
static segdag_store *forked;

static int use_forked(int closes) {
    segdag_sizes sizes = SEGDAG_SIZES_INIT;
    segdag_text reply = {0};
    segdag_ids found = {0};
    segdag_id name;
    uint64_t number;
    bool is;
    name_of(0, &name);
    WANTS(add_row(forked, 3) == SEGDAG_FORKED && segdag_session_flush(forked, 0, NULL, 0, &sizes) == SEGDAG_FORKED);
    WANTS(segdag_store_line(forked, "0 status", 8, &reply) == SEGDAG_FORKED && segdag_query_ids(forked, 0, "all", 3, &found) == SEGDAG_FORKED);
    WANTS(segdag_commit_number(forked, 0, &name, &number) == SEGDAG_FORKED && segdag_commit_is_ancestor(forked, 0, &name, &name, &is) == SEGDAG_FORKED);
    WANTS(segdag_session_reload(forked, 0, &number) == SEGDAG_FORKED && segdag_mirror_add(forked, "mirror") == SEGDAG_FORKED);
    if (closes)
        segdag_store_close(forked);
    return 0;
}

/* Waits until the pipe's other end is closed. */
static void wait_for(int pipe[2]) {
    char byte;
    close(pipe[1]);
    while (read(pipe[0], &byte, 1) < 0 && errno == EINTR)
        ;
    close(pipe[0]);
}

static void try_forks(void) {
    int ends[2];
    make_log("forked", 3);
    WANTS(!open_log("forked", 1, &forked));
    WANTS(in_child(use_forked, 0) == 0 && in_child(use_forked, 1) == 0);
    segdag_store *second = NULL;
    WANTS(open_log("forked", 1, &second) == SEGDAG_LOCKED && !put(forked, 3) && pipe(ends) == 0);
    pid_t child = fork();
    if (child == 0) {
        wait_for(ends);
        _exit(0);
    }
    WANTS(!close_log(&forked) && has_rows("forked", 4));
    close(ends[0]);
    close(ends[1]);
    WANTS(waitpid(child, NULL, 0) == child);
}

/* What a lock fails by is told as what it is, and nobody waits for it. */
static void try_locks(void) {
    static const int fails[] = {ENOLCK, EOPNOTSUPP, EBADF};
    segdag_store *store = NULL;
    make_log("locked", 1);
    for (size_t i = 0; i < sizeof fails / sizeof *fails; i++) {
        lock_fails = fails[i];
        WANTS(open_log("locked", 1, &store) == SEGDAG_NOT_OPENED && !store);
        WANTS(open_by("locked", 0, SEGDAG_FOREVER, &store) == SEGDAG_NOT_OPENED && !store);
    }
    lock_fails = 0;
    WANTS(has_rows("locked", 1));
}

/* ---- limits of the process */

/* Stores rows until no file may become longer, and tells how many were acknowledged by its status. */
static int fill(int bytes) {
    const struct rlimit limit = {(rlim_t)bytes, (rlim_t)bytes};
    segdag_store *store = NULL;
    segdag_code status = open_log("limited", 1, &store);
    int stored = 0;
    if (status || setrlimit(RLIMIT_FSIZE, &limit))
        return 255;
    while ((status = put(store, (uint64_t)stored)) == SEGDAG_OK && stored < 200)
        stored += 1;
    WANTS(status == SEGDAG_DISK && segdag_query_count(store, 0, "all", 3, &(uint64_t){0}) == SEGDAG_CLOSED && !close_log(&store));
    return failures ? 255 : stored;
}

static void try_sizes(void) {
    for (int bytes = 0; bytes < 1500; bytes += 239) {
        unlink("limited");
        int status = in_child(fill, bytes), stored = WEXITSTATUS(status);
        WANTS(WIFEXITED(status) || (WIFSIGNALED(status) && WTERMSIG(status) != SIGXFSZ));
        WANTS(WIFEXITED(status) && (has_rows("limited", (uint64_t)stored) || has_rows("limited", (uint64_t)stored + 1)));
    }
}

/* Opens a log where so many descriptors are free. */
static int open_with_free(int free) {
    segdag_store *store = NULL;
    int next = dup(0);
    close(next);
    struct rlimit limit = {(rlim_t)(next + free), (rlim_t)(next + free)};
    if (setrlimit(RLIMIT_NOFILE, &limit))
        return 1;
    segdag_code status = open_log("new", 1, &store);
    if (free > 1)
        return status || close_log(&store);
    return status != SEGDAG_NOT_OPENED || store || is_file("new");
}

static void try_descriptors(void) {
    for (int free = 0; free < 4; free++) {
        unlink("new");
        WANTS(in_child(open_with_free, free) == 0);
    }
}

/* ---- ways to open */

static void try_options(void) {
    static const uint32_t wrong[] = {SEGDAG_OPEN_CREATE | SEGDAG_OPEN_READ_ONLY, SEGDAG_OPEN_CREATE | SEGDAG_OPEN_FOLLOW,
        SEGDAG_OPEN_READ_ONLY | SEGDAG_OPEN_FOLLOW, 2 * SEGDAG_OPEN_ANY_FILE, UINT32_MAX};
    segdag_open_options options = SEGDAG_OPEN_OPTIONS_INIT;
    segdag_store *store = NULL;
    for (size_t i = 0; i < sizeof wrong / sizeof *wrong; i++)
        WANTS(open_by("ways", wrong[i], 0, &store) == SEGDAG_ARGUMENT && !store);
    options.size -= 1;
    WANTS(segdag_store_open("ways", &options, &store) == SEGDAG_ARGUMENT && segdag_store_open("ways", NULL, &store) == SEGDAG_NOT_OPENED);
    options = (segdag_open_options)SEGDAG_OPEN_OPTIONS_INIT;
    options.cache = SEGDAG_MOST_CACHE + 1;
    WANTS(segdag_store_open("ways", &options, &store) == SEGDAG_ARGUMENT && segdag_store_open("ways", &options, NULL) == SEGDAG_ARGUMENT);
    options.cache = 0;
    options.most_bytes = SEGDAG_LOG_BYTES + 1;
    WANTS(segdag_store_open("ways", &options, &store) == SEGDAG_ARGUMENT && segdag_store_open(NULL, NULL, &store) == SEGDAG_ARGUMENT);
    WANTS(open_by("ways", 0, 0, &store) == SEGDAG_NOT_OPENED && open_by("ways", SEGDAG_OPEN_READ_ONLY, 0, &store) == SEGDAG_NOT_OPENED && !is_file("ways"));
    WANTS(!open_by("ways", SEGDAG_OPEN_CREATE, 0, &store) && is_file("ways") && !put(store, 0) && !close_log(&store));
    WANTS(!open_by("ways", 0, 0, &store) && !put(store, 1) && !close_log(&store) && has_rows("ways", 2));
}

/* Those that only read are beside each other, and keep writers away. */
static void try_read_only(void) {
    segdag_store *first = NULL, *second = NULL, *writer = NULL;
    segdag_sizes sizes = SEGDAG_SIZES_INIT;
    make_log("ways", 3);
    WANTS(!open_by("ways", SEGDAG_OPEN_READ_ONLY, 0, &first) && !open_by("ways", SEGDAG_OPEN_READ_ONLY, 0, &second));
    WANTS(open_log("ways", 1, &writer) == SEGDAG_LOCKED && !writer && put(first, 3) == SEGDAG_READ_ONLY && is_reply(second, "0 status", "ok 3 0 0\n"));
    WANTS(segdag_session_flush(first, 0, NULL, 0, &sizes) == SEGDAG_READ_ONLY && is_reply(first, "0 status", "ok 3 0 1\n") && is_reply(first, "0 reload", "ok reloaded 1\n"));
    WANTS(!close_log(&first) && open_log("ways", 1, &writer) == SEGDAG_LOCKED && !close_log(&second) && !open_log("ways", 1, &writer));
    WANTS(open_by("ways", SEGDAG_OPEN_READ_ONLY, 0, &first) == SEGDAG_LOCKED && !close_log(&writer));
    write_file("ways", "", 0);
    WANTS(!open_by("ways", SEGDAG_OPEN_READ_ONLY, 0, &first) && is_reply(first, "0 status", "ok 0 0 0\n") && !close_log(&first) && has_bytes("ways", "", 0));
}

/* ---- threads */

static void pause_for(long milliseconds) {
    nanosleep(&(struct timespec){milliseconds / 1000, milliseconds % 1000 * 1000000}, NULL);
}

/* Closes another thread's store, behind a while. */
static void *close_later(void *store) {
    segdag_store *closed = store;
    pause_for(150);
    WANTS(!close_log(&closed));
    return NULL;
}

static void try_waits(void) {
    segdag_store *store = NULL, *waits = NULL;
    pthread_t thread;
    make_log("ways", 1);
    for (uint32_t wait = 10000; wait; wait = wait == SEGDAG_FOREVER ? 0 : SEGDAG_FOREVER) {
        WANTS(!open_log("ways", 1, &store) && open_by("ways", 0, 30, &waits) == SEGDAG_LOCKED && !waits);
        WANTS(!pthread_create(&thread, NULL, close_later, store) && !open_by("ways", 0, wait, &waits));
        WANTS(!pthread_join(thread, NULL) && !close_log(&waits));
    }
}

#define THREADS 6
#define CALLS 300

/* What each of the threads has: its store, which is everybody's, and its number, which is its session. */
typedef struct worker {
    segdag_store *store;
    int number;
    pthread_t thread;
} worker;

/* Adds rows to its session, stores them, and asks for what all have stored. */
static void *work(void *at) {
    const worker *own = at;
    segdag_sizes sizes = SEGDAG_SIZES_INIT;
    segdag_ids found = {0};
    segdag_text reply = {0};
    uint64_t id, number;
    uint8_t session = (uint8_t)own->number;
    for (int i = 0; i < CALLS; i++) {
        segdag_id name, seen;
        name_of((uint64_t)(own->number * CALLS + i + 1000), &name);
        WANTS(!segdag_commit_add(own->store, session, &name, NULL, 0, &id) && !segdag_commit_id(own->store, session, id, &seen) && is_same(&name, &seen));
        WANTS(!segdag_query_count(own->store, session, "all", 3, &number) && number > 0 && !segdag_store_line(own->store, "15 reload", 9, &reply));
        if (i % 50 == 49)
            WANTS(!segdag_session_flush(own->store, session, NULL, 0, &sizes) && !segdag_commit_number(own->store, session, &name, &id));
        WANTS(!segdag_query_ids(own->store, session, "top(all,3)", 10, &found) && found.count > 0 && !segdag_session_reload(own->store, session, &number));
    }
    segdag_ids_free(&found);
    segdag_text_free(&reply);
    return NULL;
}

/* Many threads use one store, which none of them opened, and another one closes it. */
static void try_threads(void) {
    worker workers[THREADS];
    segdag_store *store = NULL;
    pthread_t thread;
    unlink("threads");
    WANTS(!open_log("threads", 16, &store));
    for (int i = 0; i < THREADS; i++) {
        workers[i] = (worker){.store = store, .number = i};
        WANTS(!pthread_create(&workers[i].thread, NULL, work, &workers[i]));
    }
    for (int i = 0; i < THREADS; i++)
        WANTS(!pthread_join(workers[i].thread, NULL));
    WANTS(!pthread_create(&thread, NULL, close_later, store) && !pthread_join(thread, NULL));
    WANTS(!open_log("threads", 16, &store) && is_reply(store, "0 count all", "ok 1800\n") && !close_log(&store));
}

int main(int count, char **words) {
    if (count != 2 || chdir(words[1])) {
        fputs("clib_edges: words\n", stderr);
        return 2;
    }
    try_closed();
    try_files();
    try_replaced();
    try_link();
    try_forks();
    try_locks();
    try_sizes();
    try_descriptors();
    try_options();
    try_read_only();
    try_waits();
    try_threads();
    return failures != 0;
}
