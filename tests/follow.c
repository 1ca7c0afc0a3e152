/* What tests/clib.sh runs of followers, by the header alone. `follow typed LOG` tries the calls on logs of its own; `follow beside LOG COUNT`
   reloads and opens beside another process's import until it has so many rows; `follow memory LOG FRONT` is run where an allocation
   finds no memory, and makes the call that tells so once more. */
#define _GNU_SOURCE
#include "clib.h"
#include <fcntl.h>
#include <pthread.h>
#include <stdarg.h>
#include <stdlib.h>
#include <sys/stat.h>
#include <sys/syscall.h>
#include <unistd.h>

/* ---- files */

/* What is done before each read of a file, as another process may, and how many reads there were; and before the next file is opened. */
static void (*before_read)(void), (*before_open)(void);
static int reads;

/* In front of the C library's, so that what the file has can change between its size and its bytes. */
ssize_t pread(int fd, void *bytes, size_t size, off_t at) {
    reads += 1;
    if (before_read)
        before_read();
    return syscall(SYS_pread64, fd, bytes, size, at);
}

int open(const char *path, int flags, ...) {
    void (*call)(void) = before_open;
    va_list more;
    before_open = NULL;
    if (call)
        call();
    va_start(more, flags);
    int mode = flags & O_CREAT ? va_arg(more, int) : 0;
    va_end(more);
    return (int)syscall(SYS_openat, AT_FDCWD, path, flags, mode);
}

/* A file's bytes. */
typedef struct content {
    char bytes[1 << 19];
    size_t size;
} content;

static void read_content(const char *path, content *file) {
    FILE *stream = fopen(path, "rb");
    WANTS(stream);
    file->size = fread(file->bytes, 1, sizeof file->bytes, stream);
    WANTS(file->size < sizeof file->bytes && fclose(stream) == 0);
}

/* Makes these the bytes of the file at the path, in place. */
static void write_bytes(const char *path, const char *bytes, size_t size) {
    FILE *stream = fopen(path, "wb");
    WANTS(stream && fwrite(bytes, 1, size, stream) == size && fclose(stream) == 0);
}

static bool has_bytes(const char *path, const char *bytes, size_t size) {
    static content now;
    read_content(path, &now);
    return now.size == size && !memcmp(now.bytes, bytes, size);
}

/* ---- a writer */

/* Adds rows from this number on up to another one, puts them into master, and closes the log, whose bytes are told then. */
static void grow(const char *path, uint64_t from, uint64_t end, content *file) {
    segdag_store *writer = NULL;
    segdag_sizes sizes = SEGDAG_SIZES_INIT;
    segdag_id head;
    WANTS(open_log(path, 1, &writer) == SEGDAG_OK);
    for (uint64_t number = from; number < end; number++)
        WANTS(add_row(writer, number) == SEGDAG_OK);
    name_of(end - 1, &head);
    WANTS(segdag_session_flush(writer, 0, &head, 1, &sizes) == SEGDAG_OK && sizes.master == end);
    WANTS(close_log(&writer) == SEGDAG_OK);
    read_content(path, file);
}

/* A log of 10 rows, that log with 10 more, and with 4,990 more in one change. */
static content ten, twenty, many;

static void make_logs(const char *path) {
    unlink(path);
    grow(path, 0, 10, &ten);
    grow(path, 10, 20, &twenty);
    grow(path, 20, 5000, &many);
    WANTS(!memcmp(ten.bytes, twenty.bytes, ten.size - 1) && !memcmp(twenty.bytes, many.bytes, twenty.size - 1) && many.size > 100000);
}

/* ---- another process, while a file is read */

static const char *growing;
static content *grown;

/* Puts the whole of a longer log in place of a front of it. */
static void store_whole(void) {
    before_read = NULL;
    write_bytes(growing, grown->bytes, grown->size);
}

/* Makes the file longer by a byte. */
static void store_byte(void) {
    FILE *stream = fopen(growing, "ab");
    WANTS(stream && fputc(0, stream) == 0 && fclose(stream) == 0);
}

/* ---- what is seen */

static bool sees(segdag_store *store, uint8_t session, uint64_t rows) {
    segdag_sizes sizes = SEGDAG_SIZES_INIT;
    return segdag_session_sizes(store, session, &sizes) == SEGDAG_OK && sizes.master == rows && sizes.others == 0;
}

static bool came(segdag_store *store, segdag_code status, uint64_t changes) {
    uint64_t count = 77;
    return segdag_store_refresh(store, &count) == status && count == changes;
}

static bool reloads(segdag_store *store, segdag_code status) {
    uint64_t pending = 0;
    segdag_text reply = {0};
    segdag_code by_line = segdag_store_line(store, "5 reload", 8, &reply);
    segdag_text_free(&reply);
    return by_line == status && segdag_session_reload(store, 0, &pending) == status;
}

/* Whether the newest of so many rows has its number as id, which has its name, and the first one is its ancestor. */
static bool finds(segdag_store *store, uint64_t rows) {
    segdag_id first, newest, found;
    uint64_t id = 0, all = 0;
    bool is = false;
    name_of(0, &first);
    name_of(rows - 1, &newest);
    return !segdag_commit_number(store, 0, &newest, &id) && id == rows - 1 && !segdag_commit_id(store, 0, id, &found) && is_same(&found, &newest)
        && !segdag_commit_is_ancestor(store, 0, &first, &newest, &is) && is && !segdag_query_count(store, 0, "all", 3, &all) && all == rows;
}

/* ---- typed calls */

/* A follower may be used by another thread than its own. */
static void *try_thread(void *store) {
    uint64_t count;
    WANTS(segdag_store_refresh(store, &count) == SEGDAG_OK && count == 0);
    return NULL;
}

static void try_arguments(const char *path) {
    segdag_store *reader = NULL, *none = NULL;
    uint64_t count = 7;
    pthread_t thread;
    unlink(path);
    WANTS(follow_log(path, 1, &none) == SEGDAG_NOT_OPENED && !none && access(path, F_OK) != 0);
    WANTS(follow_log("/", 1, &none) == SEGDAG_NOT_OPENED && follow_log("/dev/null", 1, &none) == SEGDAG_NOT_OPENED && !none);
    WANTS(follow_log(NULL, 1, &none) == SEGDAG_ARGUMENT && follow_log(path, 1, NULL) == SEGDAG_ARGUMENT);
    WANTS(segdag_store_refresh(NULL, &count) == SEGDAG_CLOSED && fcntl(0, F_GETFD) >= 0);
    write_bytes(path, ten.bytes, ten.size);
    WANTS(follow_log(path, UINT32_MAX, &none) == SEGDAG_ARGUMENT && follow_log(path, 65537, &none) == SEGDAG_ARGUMENT && !none);
    WANTS(follow_log(path, 1, &reader) == SEGDAG_OK && segdag_store_refresh(reader, NULL) == SEGDAG_ARGUMENT);
    if (!pthread_create(&thread, NULL, try_thread, reader))
        pthread_join(thread, NULL);
    WANTS(close_log(&reader) == SEGDAG_OK && !reader);
    WANTS(open_log(path, 1, &reader) == SEGDAG_OK && came(reader, SEGDAG_OK, 0) && close_log(&reader) == SEGDAG_OK);
    WANTS(!strcmp(segdag_code_name(SEGDAG_READ_ONLY), "read-only") && !strcmp(segdag_code_name(SEGDAG_REPLACED), "replaced"));
}

/* A log that has nothing yet, of no byte and of one, whatever this is, and what a writer puts there. */
static void try_fresh(const char *path) {
    static const char *const fresh[] = {"", "\0", "\1"};
    for (size_t i = 0; i < 3; i++) {
        segdag_store *reader = NULL;
        write_bytes(path, fresh[i], i > 0);
        WANTS(follow_log(path, 1, &reader) == SEGDAG_OK && sees(reader, 0, 0) && came(reader, SEGDAG_OK, 0) && reloads(reader, SEGDAG_OK));
        WANTS(has_bytes(path, fresh[i], i > 0));
        content now;
        grow(path, 0, 10, &now);
        WANTS(sees(reader, 0, 0) && came(reader, SEGDAG_OK, 1) && sees(reader, 0, 0) && reloads(reader, SEGDAG_OK) && finds(reader, 10));
        WANTS(has_bytes(path, ten.bytes, ten.size) && close_log(&reader) == SEGDAG_OK);
    }
}

static bool follows(segdag_store *reader, const char *line) {
    segdag_text reply = {0};
    bool is = segdag_store_line(reader, line, strlen(line), &reply) == SEGDAG_READ_ONLY && reply.size == 0 && *reply.bytes == 0;
    segdag_text_free(&reply);
    return is;
}

/* Changes are refused, in each form, and nothing becomes of them; the log has no lock, and its file no other byte. */
static void try_refused(const char *path) {
    segdag_store *reader = NULL, *writer = NULL;
    segdag_sizes sizes = SEGDAG_SIZES_INIT;
    segdag_id name;
    uint64_t number = 0;
    write_bytes(path, ten.bytes, ten.size);
    name_of(10, &name);
    WANTS(follow_log(path, 1, &reader) == SEGDAG_OK && open_log(path, 1, &writer) == SEGDAG_OK && segdag_mirror_add(reader, path) == SEGDAG_OK);
    WANTS(add_row(reader, 10) == SEGDAG_OK && segdag_session_flush(reader, 0, &name, 1, &sizes) == SEGDAG_READ_ONLY);
    WANTS(segdag_session_flush(reader, 0, NULL, 0, &sizes) == SEGDAG_READ_ONLY && segdag_session_strip(reader, 1, &name, 1, &sizes) == SEGDAG_READ_ONLY);
    WANTS(clone_log(reader, 1, &number) == SEGDAG_READ_ONLY && segdag_session_pull(reader, 1, &sizes) == SEGDAG_READ_ONLY);
    WANTS(follows(reader, "0 flush") && follows(reader, "0 flush 0000") && follows(reader, "15 clone") && follows(reader, "0 pull") && follows(reader, "0 strip x"));
    WANTS(is_reply(reader, "0 flushed", "err syntax\n") && is_reply(reader, " flush", "err syntax\n") && is_reply(reader, "0  pull", "err syntax\n"));
    WANTS(is_reply(reader, "# flush", "") && is_reply(reader, "# 0 flush", "") && is_reply(reader, "", ""));
    WANTS(is_reply(reader, "0 mirrors", "ok 1\n") && is_reply(reader, "0 status", "ok 10 0 1\n"));
    WANTS(has_bytes(path, ten.bytes, ten.size) && close_log(&writer) == SEGDAG_OK && close_log(&reader) == SEGDAG_OK);
}

/* Pending rows stay while changes are taken. A reload puts them on top of what came, without those that this has by now. */
static void try_pending(const char *path) {
    segdag_store *reader = NULL;
    uint64_t pending = 0;
    content now;
    write_bytes(path, ten.bytes, ten.size);
    WANTS(follow_log(path, 1, &reader) == SEGDAG_OK);
    for (uint64_t number = 10; number < 25; number++)
        WANTS(add_row(reader, number) == SEGDAG_OK);
    grow(path, 10, 20, &now);
    WANTS(came(reader, SEGDAG_OK, 1) && is_reply(reader, "0 status", "ok 10 0 15\n") && is_reply(reader, "1 status", "ok 10 0 0\n"));
    WANTS(segdag_session_reload(reader, 0, &pending) == SEGDAG_OK && pending == 5 && is_reply(reader, "0 status", "ok 20 0 5\n"));
    WANTS(is_reply(reader, "1 status", "ok 10 0 0\n") && is_reply(reader, "1 reload", "ok reloaded 0\n") && is_reply(reader, "1 status", "ok 20 0 0\n"));
    grow(path, 20, 22, &now);
    WANTS(is_reply(reader, "0 reload", "ok reloaded 3\n") && is_reply(reader, "0 discard", "ok discarded 3\n") && finds(reader, 22));
    WANTS(close_log(&reader) == SEGDAG_OK);
}

/* What stands behind the closed gate means nothing; an open one wants a whole and lawful change behind it, and no log becomes shorter. Behind
   each refusal the follower answers what it had, and goes on once the log is one again. */
static void try_damaged(const char *path) {
    static content log;
    segdag_store *reader = NULL;
    write_bytes(path, ten.bytes, ten.size);
    WANTS(follow_log(path, 1, &reader) == SEGDAG_OK);
    memcpy(log.bytes, ten.bytes, ten.size);
    memset(log.bytes + ten.size, 1, 100000);
    write_bytes(path, log.bytes, ten.size + 100000);
    WANTS(came(reader, SEGDAG_OK, 0) && reloads(reader, SEGDAG_OK) && finds(reader, 10));
    log.bytes[ten.size - 1] = 1;
    write_bytes(path, log.bytes, ten.size + 100000);
    WANTS(came(reader, SEGDAG_NO_LOG, 0) && reloads(reader, SEGDAG_NO_LOG) && finds(reader, 10));
    memcpy(log.bytes + ten.size - 1, ten.bytes, ten.size);
    write_bytes(path, log.bytes, 2 * ten.size - 1);
    WANTS(came(reader, SEGDAG_NO_LOG, 0) && reloads(reader, SEGDAG_NO_LOG) && finds(reader, 10));
    for (size_t size = 0; size < ten.size; size++) {
        write_bytes(path, ten.bytes, size);
        WANTS(came(reader, SEGDAG_NO_LOG, 0));
    }
    WANTS(reloads(reader, SEGDAG_NO_LOG) && finds(reader, 10));
    for (size_t size = ten.size + 1; size < twenty.size; size++) {
        write_bytes(path, twenty.bytes, size);
        WANTS(came(reader, SEGDAG_NO_LOG, 0));
    }
    WANTS(reloads(reader, SEGDAG_NO_LOG) && finds(reader, 10));
    memcpy(log.bytes, twenty.bytes, twenty.size);
    log.bytes[twenty.size - 1] = 1;
    write_bytes(path, log.bytes, twenty.size);
    WANTS(came(reader, SEGDAG_NO_LOG, 0) && finds(reader, 10));
    write_bytes(path, twenty.bytes, twenty.size);
    WANTS(finds(reader, 10) && reloads(reader, SEGDAG_OK) && finds(reader, 20));
    WANTS(close_log(&reader) == SEGDAG_OK);
}

/* A change that is lawful, and behind it one that isn't: the first one stays, also where the file grows meanwhile. */
static void try_partly(const char *path) {
    static content log;
    segdag_store *reader = NULL;
    write_bytes(path, ten.bytes, ten.size);
    WANTS(follow_log(path, 1, &reader) == SEGDAG_OK);
    memcpy(log.bytes, twenty.bytes, twenty.size);
    memcpy(log.bytes + twenty.size - 1, ten.bytes, ten.size);
    memset(log.bytes + twenty.size + ten.size - 1, 1, 100000);
    write_bytes(path, log.bytes, twenty.size + ten.size + 100000);
    growing = path;
    before_read = store_byte;
    WANTS(came(reader, SEGDAG_NO_LOG, 1));
    before_read = NULL;
    WANTS(came(reader, SEGDAG_NO_LOG, 0) && finds(reader, 10));
    write_bytes(path, many.bytes, many.size);
    WANTS(came(reader, SEGDAG_OK, 1) && reloads(reader, SEGDAG_OK) && finds(reader, 5000) && close_log(&reader) == SEGDAG_OK);
}

/* A log that is written anew, and one that is gone. */
static void try_replaced(const char *path) {
    segdag_store *reader = NULL;
    char other[4096];
    snprintf(other, sizeof other, "%s.other", path);
    write_bytes(path, twenty.bytes, twenty.size);
    WANTS(follow_log(path, 1, &reader) == SEGDAG_OK && came(reader, SEGDAG_OK, 0));
    write_bytes(other, many.bytes, many.size);
    WANTS(!rename(other, path) && came(reader, SEGDAG_REPLACED, 0) && reloads(reader, SEGDAG_REPLACED) && finds(reader, 20));
    WANTS(add_row(reader, 20) == SEGDAG_OK && is_reply(reader, "0 status", "ok 20 0 1\n") && close_log(&reader) == SEGDAG_OK);
    WANTS(follow_log(path, 1, &reader) == SEGDAG_OK && finds(reader, 5000) && came(reader, SEGDAG_OK, 0));
    WANTS(!unlink(path) && came(reader, SEGDAG_REPLACED, 0) && finds(reader, 5000) && close_log(&reader) == SEGDAG_OK);
}

/* ---- followers of an open store */

/* One more is on the newest version, whatever the first one has seen of it, without the first one's rows, and neither does
   anything to the other. */
static void try_again(const char *path) {
    segdag_store *reader = NULL, *again = NULL, *third = NULL;
    content now;
    write_bytes(path, ten.bytes, ten.size);
    WANTS(follow_log(path, 1, &reader) == SEGDAG_OK && add_row(reader, 10) == SEGDAG_OK);
    WANTS(segdag_store_follow(reader, &again) == SEGDAG_OK && is_reply(again, "0 status", "ok 10 0 0\n") && finds(again, 10));
    WANTS(is_reply(reader, "0 status", "ok 10 0 1\n") && close_log(&again) == SEGDAG_OK);
    grow(path, 10, 20, &now);
    WANTS(segdag_store_follow(reader, &again) == SEGDAG_OK && sees(again, 0, 20) && sees(again, 15, 20) && finds(again, 20) && came(again, SEGDAG_OK, 0));
    WANTS(is_reply(reader, "0 status", "ok 10 0 1\n") && came(reader, SEGDAG_OK, 1) && is_reply(reader, "0 status", "ok 10 0 1\n"));
    WANTS(add_row(again, 20) == SEGDAG_OK && add_row(again, 21) == SEGDAG_OK && segdag_store_follow(again, &third) == SEGDAG_OK && close_log(&reader) == SEGDAG_OK);
    grow(path, 20, 22, &now);
    WANTS(is_reply(again, "0 reload", "ok reloaded 0\n") && close_log(&again) == SEGDAG_OK && sees(third, 0, 20));
    WANTS(reloads(third, SEGDAG_OK) && finds(third, 22) && segdag_session_flush(third, 0, NULL, 0, &(segdag_sizes)SEGDAG_SIZES_INIT) == SEGDAG_READ_ONLY);
    WANTS(close_log(&third) == SEGDAG_OK);
}

/* Of a writer, and of a log that has nothing yet. */
static void try_again_of_writer(const char *path) {
    segdag_store *writer = NULL, *reader = NULL;
    segdag_sizes sizes = SEGDAG_SIZES_INIT;
    segdag_id head;
    unlink(path);
    name_of(0, &head);
    WANTS(open_log(path, 1, &writer) == SEGDAG_OK && segdag_store_follow(writer, &reader) == SEGDAG_OK && sees(reader, 0, 0) && came(reader, SEGDAG_OK, 0));
    WANTS(add_row(writer, 0) == SEGDAG_OK && segdag_session_flush(writer, 0, &head, 1, &sizes) == SEGDAG_OK && reloads(reader, SEGDAG_OK) && finds(reader, 1));
    WANTS(add_row(writer, 1) == SEGDAG_OK && close_log(&reader) == SEGDAG_OK && segdag_store_follow(writer, &reader) == SEGDAG_OK && finds(reader, 1));
    WANTS(close_log(&writer) == SEGDAG_OK && came(reader, SEGDAG_OK, 0) && close_log(&reader) == SEGDAG_OK);
}

static const char *replaced_path, *replacing_path;

static void replace_file(void) {
    WANTS(!rename(replacing_path, replaced_path));
}

/* Another file is put in its place right before it is opened; what came isn't lawful, or is no log any more. */
static void try_again_refused(const char *path) {
    static content log;
    segdag_store *reader = NULL, *again = NULL;
    char other[4096];
    snprintf(other, sizeof other, "%s.other", path);
    write_bytes(path, ten.bytes, ten.size);
    WANTS(follow_log(path, 1, &reader) == SEGDAG_OK);
    memcpy(log.bytes, ten.bytes, ten.size);
    memcpy(log.bytes + ten.size - 1, ten.bytes, ten.size);
    write_bytes(path, log.bytes, 2 * ten.size - 1);
    WANTS(segdag_store_follow(reader, &again) == SEGDAG_NO_LOG && !again && finds(reader, 10));
    write_bytes(path, ten.bytes, ten.size - 1);
    WANTS(segdag_store_follow(reader, &again) == SEGDAG_NO_LOG && !again && finds(reader, 10));
    write_bytes(path, ten.bytes, ten.size);
    write_bytes(other, ten.bytes, ten.size);
    replaced_path = path;
    replacing_path = other;
    before_open = replace_file;
    WANTS(segdag_store_follow(reader, &again) == SEGDAG_REPLACED && !before_open && !again && finds(reader, 10));
    WANTS(segdag_store_follow(reader, &again) == SEGDAG_REPLACED && !again && close_log(&reader) == SEGDAG_OK);
}

/* The gate opens between the size and the read of what came. */
static void try_again_growing(const char *path) {
    segdag_store *reader = NULL, *again = NULL;
    growing = path;
    grown = &twenty;
    write_bytes(path, ten.bytes, ten.size);
    WANTS(follow_log(path, 1, &reader) == SEGDAG_OK);
    write_bytes(path, twenty.bytes, ten.size - 1 + (twenty.size - ten.size) / 2);
    before_read = store_whole;
    WANTS(segdag_store_follow(reader, &again) == SEGDAG_OK && !before_read && finds(again, 20) && finds(reader, 10));
    WANTS(close_log(&again) == SEGDAG_OK && close_log(&reader) == SEGDAG_OK);
}

/* What a thread does with a follower of its own, of a store that others follow, too. */
static void *try_again_thread(void *given) {
    segdag_store *own = NULL;
    for (int turn = 0; turn < 20; turn++) {
        WANTS(segdag_store_follow(given, &own) == SEGDAG_OK && finds(own, 5000) && reloads(own, SEGDAG_OK));
        WANTS(close_log(&own) == SEGDAG_OK);
    }
    return NULL;
}

/* Eight threads, each with followers that it opens and closes: the stores share nothing. */
static void try_again_threads(const char *path) {
    segdag_store *reader = NULL;
    pthread_t threads[8];
    int begun = 0;
    write_bytes(path, many.bytes, many.size);
    WANTS(follow_log(path, 1, &reader) == SEGDAG_OK);
    while (begun < 8 && !pthread_create(&threads[begun], NULL, try_again_thread, reader))
        begun += 1;
    WANTS(begun == 8);
    for (int i = 0; i < begun; i++)
        pthread_join(threads[i], NULL);
    WANTS(close_log(&reader) == SEGDAG_OK);
}

/* A path from the folder in which the process is names the same file when it is in another one. */
static void try_folders(const char *path) {
    segdag_store *reader = NULL;
    content now;
    char here[4096], *slash = strrchr(path, '/');
    WANTS(slash && getcwd(here, sizeof here));
    write_bytes(path, ten.bytes, ten.size);
    *slash = 0;
    WANTS(!chdir(path) && follow_log(slash + 1, 1, &reader) == SEGDAG_OK && !chdir(here));
    *slash = '/';
    grow(path, 10, 20, &now);
    WANTS(reloads(reader, SEGDAG_OK) && finds(reader, 20) && close_log(&reader) == SEGDAG_OK);
}

/* ---- a file that grows while it is read */

/* The gate opens between the size, which ends within the change behind it, and the read. */
static void try_growing(const char *path) {
    segdag_store *reader = NULL;
    growing = path;
    for (int is_long = 0; is_long < 2; is_long++) {
        grown = is_long ? &many : &twenty;
        uint64_t rows = is_long ? 5000 : 20;
        write_bytes(path, grown->bytes, ten.size - 1 + (grown->size - ten.size) / 2);
        before_read = store_whole;
        WANTS(follow_log(path, 1, &reader) == SEGDAG_OK && !before_read && finds(reader, rows) && close_log(&reader) == SEGDAG_OK);
        write_bytes(path, ten.bytes, ten.size);
        WANTS(follow_log(path, 1, &reader) == SEGDAG_OK && finds(reader, 10));
        write_bytes(path, grown->bytes, ten.size - 1 + (grown->size - ten.size) / 2);
        before_read = store_whole;
        WANTS(came(reader, SEGDAG_OK, 1 + (uint64_t)is_long) && !before_read && reloads(reader, SEGDAG_OK) && finds(reader, rows));
        WANTS(close_log(&reader) == SEGDAG_OK);
    }
}

/* A file that only grows, and never has what its gate tells, is given up behind a thousand turns. */
static void try_endless(const char *path) {
    static char log[] = "\1\0\0\0\0\1\0\0\0";
    segdag_store *reader = NULL;
    write_bytes(path, log, sizeof log);
    before_read = store_byte;
    reads = 0;
    WANTS(follow_log(path, 1, &reader) == SEGDAG_NO_LOG && !reader && reads == 1000);
    before_read = NULL;
    write_bytes(path, "", 1);
    WANTS(follow_log(path, 1, &reader) == SEGDAG_OK);
    write_bytes(path, log, sizeof log);
    before_read = store_byte;
    reads = 0;
    WANTS(came(reader, SEGDAG_NO_LOG, 0) && reads == 1000);
    before_read = NULL;
    write_bytes(path, ten.bytes, ten.size);
    WANTS(reloads(reader, SEGDAG_OK) && finds(reader, 10) && close_log(&reader) == SEGDAG_OK);
}

static int try_typed(char *path) {
    make_logs(path);
    try_arguments(path);
    try_fresh(path);
    try_refused(path);
    try_pending(path);
    try_damaged(path);
    try_partly(path);
    try_replaced(path);
    try_folders(path);
    try_growing(path);
    try_endless(path);
    try_again(path);
    try_again_of_writer(path);
    try_again_refused(path);
    try_again_growing(path);
    try_again_threads(path);
    return failures != 0;
}

/* ---- beside another process */

/* Reloads without a pause until there are so many rows, and opens anew now and then. */
static int follow_beside(const char *path, uint64_t rows) {
    segdag_store *reader = NULL;
    segdag_sizes sizes = SEGDAG_SIZES_INIT;
    uint64_t turns = 0, moved = 0, opened = 0, seen = 0, count = 0, pending = 0;
    segdag_code status = SEGDAG_OK;
    for (; status == SEGDAG_OK && failures == 0 && seen < rows; turns++) {
        if (turns % 64 == 0) {
            close_log(&reader);
            status = follow_log(path, 1, &reader);
            opened += 1;
        } else if (turns % 2)
            status = segdag_store_refresh(reader, &count);
        if (status == SEGDAG_OK)
            status = segdag_session_reload(reader, 0, &pending);
        if (status == SEGDAG_OK)
            status = segdag_session_sizes(reader, 0, &sizes);
        WANTS(status || (sizes.master >= seen && sizes.others == 0 && (sizes.master == 0 || finds(reader, sizes.master))));
        moved += sizes.master > seen;
        seen = sizes.master;
    }
    close_log(&reader);
    printf("%llu %llu %llu\n", (unsigned long long)turns, (unsigned long long)moved, (unsigned long long)opened);
    return stopped("follow", status) || failures;
}

/* ---- want of memory */

/* How many calls told that they found no memory. */
static int wanted_memory;

static segdag_code told(segdag_code status) {
    wanted_memory += status == SEGDAG_MEMORY;
    return status;
}

/* Asks for more until it isn't refused for want of memory, and tells how many changes came. */
static uint64_t take_all(segdag_store *reader) {
    uint64_t count = 0, all = 0;
    segdag_code status;
    do {
        status = told(segdag_store_refresh(reader, &count));
        all += count;
    } while (status == SEGDAG_MEMORY);
    WANTS(status == SEGDAG_OK);
    return all;
}

/* A system call, since streams ask for memory. The bytes end with a closed gate in place of what stands there. */
static void put_front(const char *path, const char *bytes, size_t size) {
    int fd = open(path, O_WRONLY | O_CREAT | O_TRUNC, 0666);
    WANTS(fd >= 0 && write(fd, bytes, size) == (ssize_t)size && write(fd, "", 1) == 1 && close(fd) == 0);
}

/* The place of the gate behind the one at this place. */
static size_t next_gate(const char *log, size_t at) {
    size_t size = 0;
    for (size_t i = 1; i < 9; i++)
        size = size << 8 | (uint8_t)log[at + i];
    return at + 9 + size;
}

static segdag_store *follow_again(const char *path) {
    segdag_store *reader = NULL;
    segdag_code status;
    do
        status = told(follow_log(path, 1, &reader));
    while (status == SEGDAG_MEMORY);
    WANTS(status == SEGDAG_OK && reader);
    return reader;
}

/* Whether a reload, and then the sizes, are answered, behind a refusal too. Where there is no memory for a reply the store is closed. */
static bool is_answered(segdag_store *reader, segdag_sizes *sizes) {
    uint64_t pending = 0;
    segdag_code status;
    do
        status = told(segdag_session_reload(reader, 0, &pending));
    while (status == SEGDAG_MEMORY);
    while (status == SEGDAG_OK && (status = told(segdag_session_sizes(reader, 0, sizes))) == SEGDAG_MEMORY)
        status = SEGDAG_OK;
    WANTS(status == SEGDAG_OK || status == SEGDAG_REPLY);
    return status == SEGDAG_OK;
}

/* A follower of the first of three changes takes the others, in steps of so many. */
static void try_steps(const char *path, const char *log, int step) {
    size_t gate = next_gate(log, 0);
    segdag_sizes sizes = SEGDAG_SIZES_INIT;
    put_front(path, log, gate);
    segdag_store *reader = follow_again(path);
    for (int i = 0; i < 2; i += step) {
        for (int k = 0; k < step; k++)
            gate = next_gate(log, gate);
        put_front(path, log, gate);
        WANTS(take_all(reader) == (uint64_t)step);
    }
    WANTS(take_all(reader) == 0);
    if (!is_answered(reader, &sizes)) {
        close_log(&reader);
        reader = follow_again(path);
        WANTS(is_answered(reader, &sizes));
    }
    WANTS(sizes.master == 60 && sizes.others == 0);
    close_log(&reader);
}

static void try_empty(const char *path) {
    put_front(path, "", 0);
    segdag_store *reader = follow_again(path);
    WANTS(take_all(reader) == 0);
    close_log(&reader);
}

/* One more follower of one of the first change, which takes the second one by itself. */
static void try_one_more(const char *path, const char *log) {
    size_t gate = next_gate(log, 0);
    segdag_sizes sizes = SEGDAG_SIZES_INIT;
    segdag_code status;
    put_front(path, log, gate);
    segdag_store *reader = follow_again(path), *again = NULL;
    put_front(path, log, next_gate(log, gate));
    do
        status = told(segdag_store_follow(reader, &again));
    while (status == SEGDAG_MEMORY);
    WANTS(status == SEGDAG_OK && again && (!is_answered(again, &sizes) || sizes.master == 40));
    close_log(&again);
    WANTS(!is_answered(reader, &sizes) || sizes.master == 40);
    close_log(&reader);
}

static int try_memory(const char *path, const char *front) {
    static char log[1 << 16];
    int fd = open(path, O_RDONLY);
    WANTS(fd >= 0 && read(fd, log, sizeof log) > 0 && close(fd) == 0);
    try_empty(front);
    try_steps(front, log, 1);
    try_steps(front, log, 2);
    try_one_more(front, log);
    printf("%d\n", wanted_memory);
    return failures != 0;
}

int main(int count, char **words) {
    if (count == 3 && !strcmp(words[1], "typed"))
        return try_typed(words[2]);
    if (count == 4 && !strcmp(words[1], "beside"))
        return follow_beside(words[2], strtoull(words[3], NULL, 10));
    if (count == 4 && !strcmp(words[1], "memory"))
        return try_memory(words[2], words[3]);
    fputs("follow: words\n", stderr);
    return 2;
}
