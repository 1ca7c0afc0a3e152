/* What tests/clib.sh runs over the library, by the header alone. `clib LOG [REMOTE].. -- run [--cache N]` answers lines as the program
   does, and ends with its status; `clib import LOG COUNT EVERY` imports rows; `clib typed LOG` tries the typed calls, and
   `clib mirrors LOG THERE OTHER` those beside mirrors; `clib pulls LOG THERE COUNT` pulls beside a log that grows to so many rows. */
#define _GNU_SOURCE
#include "clib.h"
#include <fcntl.h>
#include <stdlib.h>
#include <sys/syscall.h>
#include <sys/types.h>
#include <unistd.h>

/* ---- lines */

/* Opens the log beside the mirrors that these words name. */
static segdag_code open_beside(const char *path, uint32_t cache, char **remotes, int count, segdag_store **store) {
    segdag_code status = open_log(path, cache, store);
    for (int i = 0; status == SEGDAG_OK && i < count; i++)
        status = segdag_mirror_add(*store, remotes[i]);
    return status;
}

/* Answers the lines of standard input on standard output, as the program does. The end has its status, too. */
static int answer_lines(const char *path, uint32_t cache, char **remotes, int count) {
    segdag_store *store = NULL;
    segdag_text reply = {0};
    size_t room = 1 << 17;
    char *line = malloc(room);
    segdag_code status = line ? open_beside(path, cache, remotes, count, &store) : SEGDAG_MEMORY;
    for (ssize_t size; status == SEGDAG_OK && (size = getline(&line, &room, stdin)) > 0;) {
        if (line[size - 1] == '\n')
            size -= 1;
        status = segdag_store_line(store, line, (size_t)size, &reply);
        /* A reply that finds no memory in the shim is a refusal of the line. */
        if (status == SEGDAG_OK)
            fwrite(reply.bytes, 1, reply.size, stdout);
        else if (status == SEGDAG_MEMORY) {
            fputs("err memory\n", stdout);
            status = SEGDAG_OK;
        }
        fflush(stdout);
    }
    free(line);
    segdag_text_free(&reply);
    close_log(&store);
    return stopped("lines", status);
}

/* ---- an import that may be killed */

/* Goes on with an import of so many rows, with a flush behind each so many, and says each flush that was answered. */
static int import_rows(const char *path, uint64_t count, uint64_t every) {
    segdag_store *store = NULL;
    segdag_sizes sizes = SEGDAG_SIZES_INIT;
    segdag_code status = open_log(path, 1, &store);
    if (status == SEGDAG_OK)
        status = segdag_session_sizes(store, 0, &sizes);
    if (status == SEGDAG_OK) {
        printf("found %llu\n", (unsigned long long)sizes.master);
        fflush(stdout);
    }
    for (uint64_t number = sizes.master; status == SEGDAG_OK && number < count;) {
        segdag_id head;
        for (uint64_t end = number + every < count ? number + every : count; status == SEGDAG_OK && number < end; number++)
            status = add_row(store, number);
        name_of(number - 1, &head);
        if (status == SEGDAG_OK)
            status = segdag_session_flush(store, 0, &head, 1, &sizes);
        if (status == SEGDAG_OK) {
            printf("flushed %llu\n", (unsigned long long)sizes.master);
            fflush(stdout);
        }
    }
    close_log(&store);
    return stopped("import", status);
}

/* ---- typed calls */

/* Sessions that are none, and sizes of another size. */
static void try_sessions(segdag_store *store) {
    segdag_store *none = NULL;
    segdag_sizes sizes = SEGDAG_SIZES_INIT;
    uint64_t number;
    WANTS(segdag_session_sizes(store, 16, &sizes) == SEGDAG_ARGUMENT && segdag_session_sizes(store, 0, NULL) == SEGDAG_ARGUMENT && segdag_session_sizes(none, 0, &sizes) == SEGDAG_CLOSED);
    WANTS(segdag_session_reload(store, 0, NULL) == SEGDAG_ARGUMENT && segdag_session_reload(store, 16, &number) == SEGDAG_ARGUMENT && segdag_session_reload(none, 0, &number) == SEGDAG_CLOSED);
    WANTS(segdag_session_discard(store, 0, NULL) == SEGDAG_ARGUMENT && segdag_session_discard(store, 16, &number) == SEGDAG_ARGUMENT && segdag_session_discard(none, 0, &number) == SEGDAG_CLOSED);
    sizes.size -= 1;
    WANTS(segdag_session_sizes(store, 0, &sizes) == SEGDAG_ARGUMENT && segdag_session_flush(store, 0, NULL, 0, &sizes) == SEGDAG_ARGUMENT);
    WANTS(segdag_session_discard(store, 256, &number) == SEGDAG_ARGUMENT && segdag_session_discard(store, UINT32_MAX, &number) == SEGDAG_ARGUMENT);
}

/* Calls with pointers, lengths and stores that are none. */
static void try_arguments(segdag_store *store, const char *path) {
    static const segdag_id names[400];
    segdag_store *none = NULL, *second = NULL;
    segdag_sizes sizes = SEGDAG_SIZES_INIT;
    segdag_text reply = {0};
    segdag_ids found = {0};
    segdag_distance distance;
    segdag_pair pair;
    uint64_t number;
    size_t done;
    bool is;
    memset(&pair, 0, sizeof pair);
    WANTS(open_log(path, 1, &second) == SEGDAG_LOCKED && !second);
    WANTS(open_log("/", 1, &second) == SEGDAG_NOT_OPENED && !second && fcntl(0, F_GETFD) >= 0);
    WANTS(open_log(NULL, 1, &second) == SEGDAG_ARGUMENT && open_log(path, SEGDAG_MOST_CACHE + 1, &second) == SEGDAG_ARGUMENT);
    WANTS(open_log(path, 1, NULL) == SEGDAG_ARGUMENT);
    WANTS(segdag_store_line(none, "0 status", 8, &reply) == SEGDAG_CLOSED);
    WANTS(segdag_commit_add(none, 0, &names[0], NULL, 0, &number) == SEGDAG_CLOSED);
    segdag_store_close(none);
    WANTS(segdag_store_line(store, NULL, 8, &reply) == SEGDAG_ARGUMENT && segdag_store_line(store, "0 status", 8, NULL) == SEGDAG_ARGUMENT);
    WANTS(segdag_store_line(store, "0 status\n1 status", 17, &reply) == SEGDAG_ARGUMENT);
    WANTS(segdag_commit_add(store, 0, NULL, NULL, 0, &number) == SEGDAG_ARGUMENT && segdag_commit_add(store, 0, &names[0], NULL, 1, &number) == SEGDAG_ARGUMENT);
    WANTS(segdag_commit_add(store, 0, &names[0], names, 9, &number) == SEGDAG_ARGUMENT && segdag_commit_add(store, 16, &names[0], NULL, 0, &number) == SEGDAG_ARGUMENT);
    WANTS(segdag_session_flush(store, 16, NULL, 0, &sizes) == SEGDAG_ARGUMENT && segdag_session_flush(store, 0, names, 400, &sizes) == SEGDAG_ARGUMENT);
    WANTS(segdag_session_flush(store, 0, names, SIZE_MAX, &sizes) == SEGDAG_ARGUMENT && segdag_session_strip(store, 0, names, 0, &sizes) == SEGDAG_ARGUMENT);
    WANTS(segdag_query_count(store, 0, "all", SIZE_MAX, &number) == SEGDAG_ARGUMENT && segdag_query_count(store, 0, NULL, 3, &number) == SEGDAG_ARGUMENT);
    WANTS(segdag_query_count(store, 0, "all of it", 9, &number) == SEGDAG_SYNTAX && segdag_query_ids(store, 0, "", 0, &found) == SEGDAG_SYNTAX);
    WANTS(segdag_commit_is_ancestor(store, 0, NULL, &names[0], &is) == SEGDAG_ARGUMENT && segdag_commit_is_ancestor(store, 0, &names[0], &names[1], NULL) == SEGDAG_ARGUMENT);
    WANTS(segdag_commit_is_ancestor(store, 16, &names[0], &names[1], &is) == SEGDAG_ARGUMENT && segdag_commit_is_ancestor(none, 0, &names[0], &names[1], &is) == SEGDAG_CLOSED);
    WANTS(segdag_commit_merge_bases(store, 0, &names[0], NULL, &found) == SEGDAG_ARGUMENT && segdag_commit_merge_bases(store, 0, &names[0], &names[1], NULL) == SEGDAG_ARGUMENT);
    WANTS(segdag_commit_merge_bases(store, 16, &names[0], &names[1], &found) == SEGDAG_ARGUMENT && segdag_commit_merge_bases(none, 0, &names[0], &names[1], &found) == SEGDAG_CLOSED);
    WANTS(segdag_commit_ahead_behind(store, 0, NULL, 1, &distance, &done) == SEGDAG_ARGUMENT && segdag_commit_ahead_behind(store, 0, &pair, 1, NULL, &done) == SEGDAG_ARGUMENT);
    WANTS(segdag_commit_ahead_behind(store, 16, &pair, 1, &distance, &done) == SEGDAG_ARGUMENT && done == 0);
    WANTS(segdag_commit_ahead_behind(store, 0, NULL, 0, NULL, &done) == SEGDAG_OK && segdag_commit_ahead_behind(none, 0, &pair, 1, &distance, &done) == SEGDAG_CLOSED);
    WANTS(segdag_commit_number(store, 0, &names[0], &number) == SEGDAG_UNKNOWN && segdag_commit_id(store, 0, 5, &found.ids[0]) == SEGDAG_ARGUMENT);
    segdag_text_free(&reply);
    segdag_ids_free(&found);
}

/* A chain of 100 rows in master, two branches of 10 and 5 that aren't, and a pending row. */
static void make_history(segdag_store *store, segdag_id names[116]) {
    segdag_sizes sizes = SEGDAG_SIZES_INIT;
    uint64_t id = 0;
    for (int i = 0; i < 116; i++) {
        int parent = i == 110 ? 99 : i == 115 ? 50 : i - 1;
        name_of((uint64_t)i, &names[i]);
        WANTS(segdag_commit_add(store, 0, &names[i], i ? &names[parent] : NULL, i > 0, &id) == SEGDAG_OK);
        WANTS(i == 115 || id == SEGDAG_OTHERS + (uint64_t)i);
        if (i == 114)
            WANTS(segdag_session_flush(store, 0, &names[99], 1, &sizes) == SEGDAG_OK && sizes.master == 100 && sizes.others == 15);
    }
    WANTS(id == SEGDAG_OTHERS + 15);
}

static void try_questions(segdag_store *store, segdag_id names[116]) {
    segdag_pair pairs[3];
    segdag_distance distances[3];
    segdag_ids found = {0};
    uint64_t number = 0;
    size_t done = 9;
    bool is = false;
    for (int i = 0; i < 116; i++) {
        segdag_id name;
        WANTS(segdag_commit_number(store, 0, &names[i], &number) == SEGDAG_OK && number == (i < 100 ? (uint64_t)i : SEGDAG_OTHERS + (uint64_t)i - 100));
        WANTS(segdag_commit_id(store, 0, number, &name) == SEGDAG_OK && is_same(&name, &names[i]));
    }
    WANTS(segdag_commit_id(store, 0, 100, &pairs[0].left) == SEGDAG_UNKNOWN && segdag_commit_id(store, 0, SEGDAG_OTHERS + 16, &pairs[0].left) == SEGDAG_UNKNOWN);
    WANTS(segdag_query_count(store, 0, "all", 3, &number) == SEGDAG_OK && number == 116 && segdag_query_count(store, 1, "all", 3, &number) == SEGDAG_OK && number == 0);
    WANTS(segdag_query_ids(store, 0, "heads(all)", 10, &found) == SEGDAG_OK && found.count == 3 && is_same(&found.ids[0], &names[115]));
    WANTS(segdag_commit_is_ancestor(store, 0, &names[3], &names[109], &is) == SEGDAG_OK && is && segdag_commit_is_ancestor(store, 0, &names[109], &names[3], &is) == SEGDAG_OK && !is);
    WANTS(segdag_commit_is_ancestor(store, 0, &names[3], &names[3], &is) == SEGDAG_OK && is);
    WANTS(segdag_commit_merge_bases(store, 0, &names[109], &names[115], &found) == SEGDAG_OK && found.count == 1 && is_same(&found.ids[0], &names[50]));
    pairs[0].left = names[109];
    pairs[0].right = names[114];
    pairs[1].left = names[0];
    pairs[1].right = names[115];
    memset(&pairs[2], 200, sizeof pairs[2]);
    WANTS(segdag_commit_ahead_behind(store, 0, pairs, 2, distances, &done) == SEGDAG_OK && done == 2);
    WANTS(distances[0].ahead == 10 && distances[0].behind == 5 && distances[1].ahead == 0 && distances[1].behind == 51);
    WANTS(segdag_commit_ahead_behind(store, 0, pairs, 3, distances, &done) == SEGDAG_UNKNOWN && done == 2);
    segdag_ids_free(&found);
}

static void try_changes(segdag_store *store, segdag_id names[116]) {
    segdag_sizes sizes = SEGDAG_SIZES_INIT;
    uint64_t number = 0;
    WANTS(segdag_commit_add(store, 0, &names[0], &names[5], 1, &number) == SEGDAG_DIFFERS);
    WANTS(segdag_session_strip(store, 0, &names[112], 1, &sizes) == SEGDAG_PENDING);
    WANTS(segdag_session_discard(store, 0, &number) == SEGDAG_OK && number == 1);
    WANTS(segdag_session_strip(store, 0, &names[112], 1, &sizes) == SEGDAG_OK && sizes.master == 100 && sizes.others == 12);
    WANTS(segdag_session_strip(store, 0, &names[9], 1, &sizes) == SEGDAG_MASTER);
    WANTS(segdag_session_reload(store, 1, &number) == SEGDAG_OK && number == 0);
    WANTS(segdag_session_sizes(store, 1, &sizes) == SEGDAG_OK && sizes.master == 100 && sizes.others == 12 && sizes.pending == 0);
    WANTS(is_reply(store, "1 status", "ok 100 12 0\n") && is_reply(store, "", "") && is_reply(store, "# no", "") && is_reply(store, "no", "err syntax\n"));
}

/* ---- mirrors */

/* Opens the log that is to be a mirror, and puts rows from this number on up to another one into its master. */
static void grow(const char *path, uint64_t from, uint64_t end) {
    segdag_store *there = NULL;
    segdag_sizes sizes = SEGDAG_SIZES_INIT;
    segdag_id head;
    WANTS(open_log(path, 1, &there) == SEGDAG_OK);
    for (uint64_t number = from; number < end; number++)
        WANTS(add_row(there, number) == SEGDAG_OK);
    name_of(end - 1, &head);
    WANTS(segdag_session_flush(there, 0, &head, 1, &sizes) == SEGDAG_OK && sizes.master == end);
    WANTS(close_log(&there) == SEGDAG_OK);
}

/* Whether each of so many rows has its number as id, and that id its name. */
static bool are_found(segdag_store *store, uint64_t count) {
    for (uint64_t number = 0; number < count; number++) {
        segdag_id name, found;
        uint64_t id = 0;
        name_of(number, &name);
        if (segdag_commit_number(store, 0, &name, &id) || id != number || segdag_commit_id(store, 0, number, &found) || !is_same(&name, &found))
            return false;
    }
    return true;
}

static void write_bytes(const char *path, const char *bytes) {
    FILE *file = fopen(path, "w");
    WANTS(file && fputs(bytes, file) >= 0 && fclose(file) == 0);
}

/* What is done before the next read of a file: the library reads by this pread. */
static void (*before_read)(void);

ssize_t pread(int fd, void *bytes, size_t size, off_t at) {
    if (before_read)
        before_read();
    return syscall(SYS_pread64, fd, bytes, size, at);
}

/* The bytes of a log of 300 rows, whose last hundred came by one change, and how many there were before it. */
static struct {
    const char *path;
    char bytes[1 << 16];
    size_t before, size;
} grown;

static size_t read_bytes(void) {
    FILE *file = fopen(grown.path, "rb");
    size_t size = file ? fread(grown.bytes, 1, sizeof grown.bytes, file) : 0;
    WANTS(file && size < sizeof grown.bytes && fclose(file) == 0);
    return size;
}

/* Makes so many bytes of it those of the file, in place. */
static void store_front(size_t size) {
    FILE *file = fopen(grown.path, "wb");
    WANTS(file && fwrite(grown.bytes, 1, size, file) == size && fclose(file) == 0);
}

/* The rest of the change, and its gate, which is open then. */
static void store_whole(void) {
    before_read = NULL;
    store_front(grown.size);
}

/* A change of a mirror's log ends between the moment when the size is asked, within it, and the read. */
static void try_growing(const char *path, const char *there) {
    segdag_store *store = NULL;
    uint64_t number = 0;
    grown.path = there;
    grow(there, 0, 200);
    grown.before = read_bytes();
    grow(there, 200, 300);
    grown.size = read_bytes();
    for (size_t more = 0; more < grown.size - grown.before; more += 97) {
        grown.bytes[grown.before - 1] = 0;
        store_front(grown.before + more);
        WANTS(open_log(path, 3, &store) == SEGDAG_OK && segdag_mirror_add(store, there) == SEGDAG_OK);
        grown.bytes[grown.before - 1] = 1;
        before_read = store_whole;
        WANTS(clone_log(store, 0, &number) == SEGDAG_OK && !before_read && number == 300 && are_found(store, 300));
        WANTS(close_log(&store) == SEGDAG_OK && unlink(path) == 0);
    }
}

/* A clone, its names, and pulls beside a log that grows, behind a file that isn't there and one that is no log. */
static int try_mirrors(const char *path, const char *there, const char *other) {
    segdag_store *store = NULL;
    segdag_sizes sizes = SEGDAG_SIZES_INIT;
    segdag_id name;
    uint64_t number = 0;
    grow(there, 0, 200);
    WANTS(segdag_mirror_add(NULL, there) == SEGDAG_CLOSED && open_log(path, 3, &store) == SEGDAG_OK);
    WANTS(clone_log(store, 0, &number) == SEGDAG_NO_REMOTE && segdag_session_pull(store, 0, &sizes) == SEGDAG_NO_REMOTE);
    WANTS(segdag_mirror_add(store, NULL) == SEGDAG_ARGUMENT && segdag_mirror_add(store, "pipe:a:b") == SEGDAG_ARGUMENT);
    WANTS(segdag_mirror_add(store, other) == SEGDAG_OK && clone_log(store, 0, &number) == SEGDAG_REMOTE);
    write_bytes(other, "\001 no log");
    WANTS(clone_log(store, 0, &number) == SEGDAG_REMOTE && is_reply(store, "0 clone", "err remote 1\n") && is_reply(store, "0 mirrors", "ok 1\n"));
    WANTS(segdag_mirror_add(store, there) == SEGDAG_OK && clone_log(store, 0, &number) == SEGDAG_OK && number == 200);
    WANTS(clone_log(store, 0, &number) == SEGDAG_NOT_EMPTY && segdag_session_clone(store, 0, NULL) == SEGDAG_ARGUMENT && are_found(store, 200));
    grow(there, 200, 300);
    name_of(299, &name);
    WANTS(segdag_commit_number(store, 0, &name, &number) == SEGDAG_UNKNOWN);
    WANTS(segdag_session_pull(store, 0, &sizes) == SEGDAG_OK && sizes.master == 300 && sizes.others == 0 && are_found(store, 300));
    WANTS(is_reply(store, "0 drop 1", "ok dropped 1\n") && segdag_session_pull(store, 0, &sizes) == SEGDAG_OK && sizes.master == 300);
    WANTS(is_reply(store, "0 drop 0", "ok dropped 0\n") && segdag_session_pull(store, 0, &sizes) == SEGDAG_NO_REMOTE && segdag_session_pull(store, 0, NULL) == SEGDAG_ARGUMENT);
    WANTS(close_log(&store) == SEGDAG_OK);
    WANTS(open_log(path, 3, &store) == SEGDAG_OK && is_reply(store, "0 status", "ok 300 0 0\n"));
    name_of(17, &name);
    WANTS(segdag_commit_number(store, 0, &name, &number) == SEGDAG_NO_REMOTE && segdag_mirror_add(store, there) == SEGDAG_OK && are_found(store, 300));
    WANTS(close_log(&store) == SEGDAG_OK);
    WANTS(unlink(path) == 0 && unlink(there) == 0);
    try_growing(path, there);
    return failures != 0;
}

/* Pulls beside a log that another process extends, until it has so many rows: none may be refused. */
static int pull_meanwhile(const char *path, char *there, uint64_t count) {
    segdag_store *store = NULL;
    segdag_sizes sizes = SEGDAG_SIZES_INIT;
    unsigned long pulls = 0;
    segdag_code status = open_beside(path, 16, &there, 1, &store);
    if (status == SEGDAG_OK)
        status = clone_log(store, 0, &sizes.master);
    for (; status == SEGDAG_OK && sizes.master < count; pulls++)
        status = segdag_session_pull(store, 0, &sizes);
    printf("pulled %lu\n", pulls);
    close_log(&store);
    return stopped("pull", status);
}

static int try_typed(const char *path) {
    static segdag_id names[116];
    segdag_store *store = NULL;
    if (stopped("open", open_log(path, 16, &store)))
        return 1;
    try_arguments(store, path);
    try_sessions(store);
    make_history(store, names);
    try_questions(store, names);
    try_changes(store, names);
    WANTS(close_log(&store) == SEGDAG_OK && !store);
    WANTS(open_log(path, 16, &store) == SEGDAG_OK && is_reply(store, "0 status", "ok 100 12 0\n"));
    WANTS(close_log(&store) == SEGDAG_OK);
    return failures != 0;
}

/* The place of the word `--`, or one behind the last. */
static int split_at(int count, char **words) {
    int at = 0;
    while (at < count && strcmp(words[at], "--"))
        at++;
    return at;
}

int main(int count, char **words) {
    int split = split_at(count, words);
    bool has_cache = count == split + 4 && !strcmp(words[split + 2], "--cache");
    if (split > 1 && (count == split + 2 || has_cache) && !strcmp(words[split + 1], "run"))
        return answer_lines(words[1], has_cache ? (uint32_t)strtoul(words[split + 3], NULL, 10) : 4096, words + 2, split - 2);
    if (count == 5 && !strcmp(words[1], "mirrors"))
        return try_mirrors(words[2], words[3], words[4]);
    if (count == 3 && !strcmp(words[1], "typed"))
        return try_typed(words[2]);
    if (count == 5 && !strcmp(words[1], "pulls"))
        return pull_meanwhile(words[2], words[3], strtoull(words[4], NULL, 10));
    if (count == 5 && !strcmp(words[1], "import"))
        return import_rows(words[2], strtoull(words[3], NULL, 10), strtoull(words[4], NULL, 10));
    fputs("clib: words\n", stderr);
    return 2;
}
