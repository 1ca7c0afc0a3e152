/* segdag-postgres: a log in PostgreSQL for who speaks lines, as the program does over a file; and logs made, taken in and written out.
     segdag-postgres CONNINFO LOG [REMOTE]... -- run [--cache N] [--patience SECONDS] [--trace FILE]
     segdag-postgres CONNINFO LOG [REMOTE]... -- follow (the same options)
     segdag-postgres CONNINFO LOG -- watch
     segdag-postgres CONNINFO LOG -- create
     segdag-postgres CONNINFO LOG -- export FILE
     segdag-postgres CONNINFO LOG -- import FILE [CHAIN]
   Where SEGDAG_POSTGRES is set it is CONNINFO, and the words begin with LOG: so segdagd drives it in place of the program. */
#define _GNU_SOURCE
#include "segdag_postgres.h"
#include <errno.h>
#include <fcntl.h>
#include <inttypes.h>
#include <stdio.h>
#include <stdlib.h>
#include <string.h>
#include <time.h>
#include <unistd.h>

/* Statuses of the program that aren't codes of the library: wrong words, an input or an output that failed. */
enum { WORDS = 2, NO_INPUT = 5, NO_OUTPUT = 6 };

/* A line has at most so many bytes. */
#define LONGEST_LINE SEGDAG_LINE_BYTES

typedef struct words {
    const char *conninfo, *log;
    char **remotes, **rest; /* behind LOG, and behind the mode */
    int remote_count, rest_count;
    const char *mode;
} words;

/* The statuses that say the same as those of the program, and others. */
static int status_of(segdag_code code) {
    static const unsigned char statuses[SEGDAG_CODES] = {
        [SEGDAG_DISK] = 3, [SEGDAG_NO_LOG] = 4, [SEGDAG_REPLY] = 6, [SEGDAG_MEMORY] = 7, [SEGDAG_NOT_OPENED] = 9, [SEGDAG_LOCKED] = 16,
        [SEGDAG_REPLACED] = 22, [SEGDAG_UNSURE] = 23, [SEGDAG_GONE] = 24, [SEGDAG_RACED] = 25, [SEGDAG_STALE] = 26, [SEGDAG_DATABASE] = 27,
        [SEGDAG_NOT_EMPTY] = 42,
    };
    return statuses[code] ? statuses[code] : WORDS;
}

/* ---- standard descriptors */

/* Takes those that are closed, so that neither a file nor a connection gets one: what is then said there goes nowhere. */
static void hold_standard(void) {
    for (int fd = STDIN_FILENO; fd <= STDERR_FILENO; fd++)
        if (fcntl(fd, F_GETFD) < 0 && errno == EBADF && open("/", O_PATH) < 0)
            exit(NO_OUTPUT);
}

/* Puts a line on standard output, as the last one. */
static int put(const char *line, const char *more) {
    return printf("%s%s\n", line, more) < 0 || fflush(stdout) ? NO_OUTPUT : 0;
}

/* ---- progress, for who sits at a terminal */

typedef struct progress {
    const char *log, *reads, *stores; /* the log's name, and what is done with it */
    struct timespec told;             /* when a line was told last */
    segdag_stage stage;               /* of that line; 0 before the first */
} progress;

#define BETWEEN 100 /* milliseconds between two lines of one stage */

static long milliseconds_since(const struct timespec *then, const struct timespec *now) {
    return (long)(now->tv_sec - then->tv_sec) * 1000 + (now->tv_nsec - then->tv_nsec) / 1000000;
}

static bool show(const segdag_progress *at, void *kept) {
    progress *own = kept;
    struct timespec now;
    clock_gettime(CLOCK_MONOTONIC, &now);
    if (at->stage == own->stage && milliseconds_since(&own->told, &now) < BETWEEN)
        return false;
    own->stage = at->stage;
    own->told = now;
    const char *does = at->stage == SEGDAG_STAGE_LOAD ? "checking" : at->stage == SEGDAG_STAGE_STORE ? own->stores : own->reads;
    fprintf(stderr, "\rsegdag-postgres: %s: %s, %.1f", own->log, does, (double)at->done / 1e6);
    if (at->whole)
        fprintf(stderr, " of %.1f", (double)at->whole / 1e6);
    fputs(" MB\033[K", stderr);
    return false;
}

/* Lets a call show how far it has come, where standard error is a terminal. */
static void begin_progress(progress *own) {
    if (isatty(STDERR_FILENO))
        segdag_postgres_progress(show, own);
}

static void end_progress(const progress *own) {
    if (own->stage)
        fputc('\n', stderr);
}

/* ---- words */

static int say(segdag_code code, const char *log) {
    fprintf(stderr, "segdag-postgres: %s: %s: %s\n", log, segdag_code_name(code), segdag_last_error()->text);
    return status_of(code);
}

static int tell_words(const char *wrong) {
    fprintf(stderr, "segdag-postgres: %s\n", wrong);
    fputs("usage: segdag-postgres CONNINFO LOG [REMOTE]... -- MODE\n"
          "  run [--cache N] [--patience SECONDS]   answer lines, as segdag does over a file\n"
          "  follow [the same options]              answer lines that change nothing, over a primary or a standby\n"
          "  watch                                  print a line whenever something was stored: how many changes came\n"
          "  create                                 make an empty log\n"
          "  export FILE                            write the log into a new file\n"
          "  import FILE [CHAIN]                    store a file's log in an empty one, or replace the one whose last row has this chain\n"
          "CONNINFO is what psql takes. Where SEGDAG_POSTGRES is set, that is used, and CONNINFO is left out.\n", stderr);
    return WORDS;
}

static bool read_words(int count, char **given, words *read) {
    int at = 1;
    read->conninfo = getenv("SEGDAG_POSTGRES");
    if (!read->conninfo && at < count)
        read->conninfo = given[at++];
    if (!read->conninfo || at >= count || !strcmp(given[at], "--"))
        return false;
    read->log = given[at++];
    read->remotes = given + at;
    while (at < count && strcmp(given[at], "--"))
        at++;
    read->remote_count = (int)(given + at - read->remotes);
    if (at + 1 >= count)
        return false;
    read->mode = given[at + 1];
    read->rest = given + at + 2;
    read->rest_count = count - at - 2;
    return true;
}

static bool read_number(const char *text, unsigned long most, unsigned long *number) {
    char *end;
    errno = 0;
    *number = strtoul(text, &end, 10);
    return *text >= '0' && *text <= '9' && !*end && !errno && *number <= most;
}

/* ---- lines */

static bool write_all(const char *bytes, size_t size) {
    while (size) {
        ssize_t count = write(STDOUT_FILENO, bytes, size);
        if (count < 0 && errno == EINTR)
            continue;
        if (count <= 0)
            return false;
        bytes += count;
        size -= (size_t)count;
    }
    return true;
}

/* Lines of standard input; a longer one is cut behind what the library still sees to be too long. */
typedef struct input {
    char bytes[65536];
    size_t from, end;
    char line[LONGEST_LINE + 1];
} input;

/* The next byte; -1 at the end, and -2 where reading failed. */
static int next_byte(input *in) {
    if (in->from == in->end) {
        ssize_t count;
        do
            count = read(STDIN_FILENO, in->bytes, sizeof in->bytes);
        while (count < 0 && errno == EINTR);
        if (count <= 0)
            return count ? -2 : -1;
        in->from = 0;
        in->end = (size_t)count;
    }
    return (unsigned char)in->bytes[in->from++];
}

/* Reads a line without its end: 1 where there is one, 0 at the end of the input, -1 where it fails. */
static int read_line(input *in, size_t *size) {
    *size = 0;
    for (bool is_begun = false;; is_begun = true) {
        int byte = next_byte(in);
        if (byte == -2)
            return -1;
        if (byte == '\n' || (byte == -1 && is_begun))
            return 1;
        if (byte == -1)
            return 0;
        if (*size < sizeof in->line)
            in->line[(*size)++] = (char)byte;
    }
}

/* The reply to a line that was refused by the place of the log and not by the core. Nothing was done, and the next line may be. */
static const char *refusal_of(segdag_code status) {
    switch (status) {
        case SEGDAG_READ_ONLY: return "err read-only\n";
        case SEGDAG_REPLACED: return "err replaced\n";
        case SEGDAG_LOCKED: return "err locked\n";
        case SEGDAG_STALE: return "err stale\n";
        case SEGDAG_GONE: return "err gone\n";
        case SEGDAG_DATABASE: return "err database\n";
        case SEGDAG_MEMORY: return "err memory\n";
        default: return NULL;
    }
}

/* Answers a line. After an end that closes the store the program ends as it does for a disk that failed: the log is as it was, or with the
   change. */
static int answer(segdag_store *store, const words *given, const char *line, size_t size, segdag_text *reply) {
    segdag_sizes sizes = SEGDAG_SIZES_INIT;
    segdag_code status = segdag_store_line(store, line, size, reply);
    if (status == SEGDAG_OK)
        return write_all(reply->bytes, reply->size) ? 0 : NO_OUTPUT;
    const char *refusal = refusal_of(status);
    int ended = say(status, given->log);
    if (refusal && segdag_session_sizes(store, 0, &sizes) == SEGDAG_OK)
        return write_all(refusal, strlen(refusal)) ? 0 : NO_OUTPUT;
    write_all("err disk\n", 9);
    return ended;
}

/* For tests: up to where the store has the log behind each line, and where the last change begins that it stored. */
static void trace(segdag_store *store, FILE *file) {
    uint64_t end = 0, own = 0;
    if (!file || segdag_postgres_end(store, &end, &own))
        return;
    fprintf(file, "%" PRIu64 " %" PRIu64 "\n", end, own);
    fflush(file);
}

static int run_lines(segdag_store *store, const words *given, FILE *traced) {
    static input in;
    segdag_text reply = {0};
    size_t size;
    int more, status = 0;
    while (status == 0 && (more = read_line(&in, &size)) != 0) {
        status = more < 0 ? NO_INPUT : answer(store, given, in.line, size, &reply);
        trace(store, traced);
    }
    segdag_text_free(&reply);
    return status;
}

typedef struct options {
    unsigned long cache, patience;
    FILE *traced;
} options;

static bool read_options(const words *given, options *read) {
    *read = (options){.cache = 4096, .patience = 5};
    if (given->rest_count % 2)
        return false;
    for (int i = 0; i < given->rest_count; i += 2) {
        const char *word = given->rest[i], *value = given->rest[i + 1];
        bool is_read = !strcmp(word, "--cache") ? read_number(value, 65536, &read->cache) && read->cache > 0
                       : !strcmp(word, "--patience") ? read_number(value, 86400, &read->patience)
                       : !strcmp(word, "--trace") && (read->traced = fopen(value, "a"));
        if (!is_read)
            return false;
    }
    return true;
}

static int run_over(const words *given, bool follows) {
    options wanted;
    if (!read_options(given, &wanted))
        return tell_words("run and follow take --cache N, from 1 to 65536, and --patience SECONDS, up to 86400");
    segdag_postgres_patience(NULL, (uint32_t)wanted.patience * 1000);
    segdag_store *store = NULL;
    segdag_code status = (follows ? segdag_postgres_follow : segdag_postgres_open)(given->conninfo, given->log, (uint32_t)wanted.cache, &store);
    if (status)
        return say(status, given->log);
    for (int i = 0; status == SEGDAG_OK && i < given->remote_count; i++)
        if ((status = segdag_mirror_add(store, given->remotes[i])))
            fprintf(stderr, "segdag-postgres: %s: %s\n", given->remotes[i], segdag_last_error()->text);
    int end = status ? status_of(status) : run_lines(store, given, wanted.traced);
    segdag_store_close(store);
    return end;
}

static int run(const words *given) {
    return run_over(given, false);
}

static int follow(const words *given) {
    return run_over(given, true);
}

/* How long one wait is, in milliseconds: behind it the database is asked even if nothing was told. */
#define WAIT 30000

static int watch(const words *given) {
    segdag_store *store = NULL;
    if (given->rest_count)
        return tell_words("watch takes no arguments");
    segdag_code status = segdag_postgres_follow(given->conninfo, given->log, 1, &store);
    for (uint64_t count = 0; status == SEGDAG_OK && !ferror(stdout); fflush(stdout)) {
        status = segdag_postgres_wait(store, WAIT, &count);
        if (status == SEGDAG_GONE || status == SEGDAG_STALE)
            status = SEGDAG_OK;
        else if (status == SEGDAG_OK && count)
            printf("ok %" PRIu64 "\n", count);
    }
    segdag_store_close(store);
    return status ? say(status, given->log) : NO_OUTPUT;
}

/* ---- logs as a whole */

static int create(const words *given) {
    if (given->rest_count)
        return tell_words("create takes no arguments");
    segdag_code status = segdag_postgres_create(given->conninfo, given->log);
    return status ? say(status, given->log) : 0;
}

static int export_log(const words *given) {
    char chain[65];
    if (given->rest_count != 1)
        return tell_words("export takes the path of a new file");
    progress own = {.log = given->log, .reads = "reading", .stores = "writing the file"};
    begin_progress(&own);
    segdag_code status = segdag_postgres_export(given->conninfo, given->log, given->rest[0], chain);
    end_progress(&own);
    return status ? say(status, given->log) : put("ok exported ", chain);
}

static int import_log(const words *given) {
    if (given->rest_count < 1 || given->rest_count > 2)
        return tell_words("import takes the path of a log, and a chain where the log isn't empty");
    progress own = {.log = given->log, .reads = "reading", .stores = "storing"};
    begin_progress(&own);
    segdag_code status = segdag_postgres_import(given->conninfo, given->log, given->rest[0], given->rest_count == 2 ? given->rest[1] : NULL);
    end_progress(&own);
    return status ? say(status, given->log) : put("ok imported", "");
}

int main(int count, char **given) {
    static const struct {
        const char *mode;
        int (*does)(const words *);
    } modes[] = {{"run", run}, {"follow", follow}, {"watch", watch}, {"create", create}, {"export", export_log}, {"import", import_log}};
    words read;
    hold_standard();
    if (!read_words(count, given, &read))
        return tell_words("a database, a log and a mode are needed");
    for (size_t i = 0; i < sizeof modes / sizeof *modes; i++)
        if (!strcmp(read.mode, modes[i].mode))
            return read.remote_count && i > 1 ? tell_words("only run and follow take mirrors") : modes[i].does(&read);
    return tell_words("there is no such mode");
}
