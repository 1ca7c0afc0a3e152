/* git-segdag, the quick way: one process of git, and one exchange with the daemon, or else the log followed by the library in this process, which
   takes no lock and writes nothing. What isn't plain (another command, a revision that isn't there, a commit that the log lacks, a reply that is
   none) is left to the package, which is Python: then nothing was put, and this process becomes it. FORMS is all that is answered here. */
#define _GNU_SOURCE
#include <dirent.h>
#include <errno.h>
#include <fcntl.h>
#include <limits.h>
#include <poll.h>
#include <signal.h>
#include <stdarg.h>
#include <stdbool.h>
#include <stdint.h>
#include <stdio.h>
#include <stdlib.h>
#include <string.h>
#include <sys/socket.h>
#include <sys/stat.h>
#include <sys/un.h>
#include <sys/wait.h>
#include <unistd.h>
#include "segdag.h"

#define MARK "01538f758bad6a5b460f77422661ebe0f34fa8ad" /* as in names.py */
#define STAND_INS "union(" MARK ",children(" MARK "))"
#define HEX 40
enum { FEW = 50, MUTE = 5000, SLOW = 30000, LONGEST = 1 << 20 }; /* revisions of a question; milliseconds of silence; bytes of what is read */

typedef enum form { MERGE_BASE, MERGE_BASES, IS_ANCESTOR, AHEAD_BEHIND, RANGE } form;

/* The plain questions: their words, how many revisions each has at least and at most. A range is one word of two. */
static const struct { const char *command, *option; form form; int least, most; } FORMS[] = {
    {"merge-base", "--all", MERGE_BASES, 2, 2},
    {"merge-base", "-a", MERGE_BASES, 2, 2},
    {"merge-base", "--is-ancestor", IS_ANCESTOR, 2, 2},
    {"merge-base", NULL, MERGE_BASE, 2, 2},
    {"is-ancestor", NULL, IS_ANCESTOR, 2, 2},
    {"ahead-behind", NULL, AHEAD_BEHIND, 2, FEW},
    {"log", NULL, RANGE, 1, 1},
    {"rev-list", "--count", RANGE, 1, 1},
};

static char **words; /* of the command line, its name in front */

/* ---- what is left to the package */

/* The folder of this file, behind the links that lead to it, without its last slash; nothing where it can't be told. */
static const char *own_folder(void) {
    static char path[PATH_MAX];
    ssize_t size = readlink("/proc/self/exe", path, sizeof path - 1);
    path[size > 0 ? size : 0] = 0;
    char *slash = strrchr(path, '/');
    if (slash) *slash = 0;
    return path;
}

/* Becomes the package: the file git-segdag beside an installation's or a checkout's other tools. */
static _Noreturn void leave(void) {
    static const char *const places[] = {"../lib/segdag/git-segdag", "../tools/git-segdag"};
    static char path[PATH_MAX];
    for (size_t at = 0; at < sizeof places / sizeof *places; at++) {
        int size = snprintf(path, sizeof path, "%s/%s", own_folder(), places[at]);
        if (size > 0 && (size_t)size < sizeof path && access(path, R_OK) == 0) {
            int count = 0;
            while (words[count]) count++;
            char **given = calloc((size_t)count + 3, sizeof *given);
            if (!given) break;
            given[0] = "python3", given[1] = "-S", given[2] = path;
            for (int word = 1; word < count; word++) given[word + 2] = words[word];
            execvp("python3", given);
            fprintf(stderr, "fatal: can't run python3: %s\n", strerror(errno));
            exit(128);
        }
    }
    fprintf(stderr, "fatal: %s has no package of git segdag beside it: don't copy git-segdag, but link to it\n", own_folder());
    exit(128);
}

/* ---- text that grows */

typedef struct text { char *bytes; size_t size, room; } text;

static void put(text *to, const char *bytes, size_t size) {
    if (to->size + size + 1 > to->room) {
        to->room = 2 * (to->size + size) + 256;
        char *more = to->room > LONGEST * 64 ? NULL : realloc(to->bytes, to->room);
        if (!more) leave();
        to->bytes = more;
    }
    memcpy(to->bytes + to->size, bytes, size);
    to->size += size;
    to->bytes[to->size] = 0;
}

__attribute__((format(printf, 2, 3))) static void print(text *to, const char *pattern, ...) {
    char line[1024];
    va_list given;
    va_start(given, pattern);
    int size = vsnprintf(line, sizeof line, pattern, given);
    va_end(given);
    if (size < 0 || (size_t)size >= sizeof line) leave();
    put(to, line, (size_t)size);
}

/* ---- the question */

typedef struct question { form form; const char *revisions[FEW + 1]; int count; } question;

static bool is_short_name(const char *word) {
    size_t size = strspn(word, "0123456789abcdefABCDEF");
    return !word[size] && size >= 4 && size < HEX;
}

/* Whether git reads this as one revision, whose kind doesn't matter. Of an abbreviation that several objects have git takes none. */
static bool is_plain(const char *word) {
    return *word && !strchr("-^:", *word) && !strpbrk(word, ":\n") && !strstr(word, "..") && !is_short_name(word);
}

/* The two ends of A..B, where either may be missing for HEAD. Three dots are more than a range, and two alone are a folder to git. */
static bool range(question *asked, char *word) {
    char *dots = strstr(word, "..");
    if (!dots || dots[2] == '.' || !strcmp(word, "..")) return false;
    asked->revisions[0] = dots == word ? "HEAD" : strndup(word, (size_t)(dots - word));
    asked->revisions[1] = dots[2] ? dots + 2 : "HEAD";
    asked->count = 2;
    for (int at = 0; at < 2; at++) {
        const char *end = asked->revisions[at];
        /* Of several objects of one abbreviation a range takes the commit. */
        if (!end || !*end || strchr("-^:", *end) || strpbrk(end, ":\n") || strstr(end, "..")) return false;
    }
    return true;
}

static bool read_question(question *asked, int count, char **given) {
    for (size_t at = 0; at < sizeof FORMS / sizeof *FORMS; at++) {
        int first = FORMS[at].option ? 3 : 2;
        if (count < first || strcmp(given[1], FORMS[at].command) || (FORMS[at].option && strcmp(given[2], FORMS[at].option))) continue;
        asked->form = FORMS[at].form, asked->count = count - first;
        if (asked->count < FORMS[at].least || asked->count > FORMS[at].most) return false;
        if (asked->form == RANGE) return range(asked, given[first]);
        for (int word = 0; word < asked->count; word++) {
            asked->revisions[word] = given[first + word];
            if (!is_plain(given[first + word])) return false;
        }
        return true;
    }
    return false;
}

/* ---- what git tells */

typedef struct repository { char *folder; char *names[FEW + 1]; } repository;

/* What a git puts; none where it refuses or can't be started. */
static bool git_tells(char *const given[], text *told) {
    int ends[2];
    if (pipe2(ends, O_CLOEXEC)) return false;
    pid_t child = fork();
    if (child < 0) return false;
    if (child == 0) {
        int none = open("/dev/null", O_RDWR);
        signal(SIGPIPE, SIG_DFL), signal(SIGXFSZ, SIG_DFL);
        if (none >= 0 && dup2(ends[1], 1) == 1 && dup2(none, 2) == 2) execvp("git", given);
        _exit(127);
    }
    close(ends[1]);
    char piece[4096];
    for (ssize_t size; (size = read(ends[0], piece, sizeof piece)) != 0;) {
        if (size > 0) put(told, piece, (size_t)size);
        else if (errno != EINTR) break;
    }
    close(ends[0]);
    int status;
    while (waitpid(child, &status, 0) < 0)
        if (errno != EINTR) return false;
    return status == 0;
}

static bool is_name(const char *line) { return strspn(line, "0123456789abcdef") == HEX && !line[HEX]; }

/* The folder that worktrees share, and the commits. */
static bool look(repository *found, const question *asked) {
    char *given[FEW + 6] = {"git", "rev-parse", "--git-common-dir", "--show-object-format"};
    text told = {0};
    for (int at = 0; at < asked->count; at++)
        if (asprintf(&given[4 + at], "%s^{commit}", asked->revisions[at]) < 0) return false;
    if (!git_tells(given, &told)) return false;
    char *line = told.bytes;
    for (int at = -2; at < asked->count; at++) {
        char *end = line ? strchr(line, '\n') : NULL;
        if (!end) return false;
        *end = 0;
        if (at == -2) found->folder = line;
        else if (at == -1 ? strcmp(line, "sha1") != 0 : !is_name(line)) return false;
        else if (at >= 0) found->names[at] = line;
        line = end + 1;
    }
    return !*line;
}

static bool is_there(const char *folder, const char *name) {
    char path[PATH_MAX];
    struct stat about;
    int size = snprintf(path, sizeof path, "%s/%s", folder, name);
    return size < 0 || (size_t)size >= sizeof path || lstat(path, &about) == 0;
}

/* Whether a folder has anything in it: git leaves the one of replacements when the last of them goes. */
static bool has_files(const char *folder, const char *name) {
    char path[PATH_MAX];
    int size = snprintf(path, sizeof path, "%s/%s", folder, name);
    DIR *open = size < 0 || (size_t)size >= sizeof path ? NULL : opendir(path);
    if (!open) return errno != ENOENT;
    struct dirent *entry;
    while ((entry = readdir(open)) && (!strcmp(entry->d_name, ".") || !strcmp(entry->d_name, ".."))) continue;
    closedir(open);
    return entry != NULL;
}

/* Whether git may answer by other parents than the commits' own, or it takes more than a look at files to tell. */
static bool has_other_parents(const char *folder) {
    if (getenv("GIT_REPLACE_REF_BASE") || getenv("GIT_GRAFT_FILE") || getenv("GIT_SHALLOW_FILE")) return true;
    static const char *const signs[] = {"shallow", "info/grafts", "reftable"};
    for (size_t at = 0; at < sizeof signs / sizeof *signs; at++)
        if (is_there(folder, signs[at])) return true;
    if (has_files(folder, "refs/replace")) return true;
    char path[PATH_MAX];
    snprintf(path, sizeof path, "%s/packed-refs", folder);
    int file = open(path, O_RDONLY | O_CLOEXEC);
    if (file < 0) return errno != ENOENT;
    text all = {0};
    static char piece[1 << 16];
    ssize_t size;
    while ((size = read(file, piece, sizeof piece)) > 0) put(&all, piece, (size_t)size);
    close(file);
    bool has = size < 0 || (all.size && memmem(all.bytes, all.size, " refs/replace/", 14));
    free(all.bytes);
    return has;
}

/* ---- who answers: lines in, replies out, each behind the other */

typedef struct answers { text text; size_t at; } answers;

/* The daemon's answers to these lines. */
static bool daemon_tells(const char *folder, const text *lines, int count, answers *to) {
    struct sockaddr_un place = {.sun_family = AF_UNIX};
    int size = snprintf(place.sun_path, sizeof place.sun_path, "%s/segdag/socket", folder);
    int door = size < 0 || (size_t)size >= sizeof place.sun_path ? -1 : socket(AF_UNIX, SOCK_STREAM | SOCK_NONBLOCK | SOCK_CLOEXEC, 0);
    if (door < 0) return false;
    text asked = {0};
    put(&asked, "nowait\n", 7);
    put(&asked, lines->bytes, lines->size);
    bool is_right = connect(door, (struct sockaddr *)&place, sizeof place) == 0 && send(door, asked.bytes, asked.size, MSG_NOSIGNAL) == (ssize_t)asked.size;
    int replies = 0;
    size_t line = 0;
    static char piece[1 << 16];
    while (is_right && replies <= count) {
        struct pollfd waiting = {door, POLLIN, 0};
        ssize_t came = poll(&waiting, 1, replies ? SLOW : MUTE) == 1 ? recv(door, piece, sizeof piece, 0) : 0;
        is_right = came > 0;
        if (!is_right) break;
        put(&to->text, piece, (size_t)came);
        for (char *end; (end = memchr(to->text.bytes + line, '\n', to->text.size - line)); line = (size_t)(end - to->text.bytes) + 1)
            replies += !strncmp(to->text.bytes + line, "ok", 2) || !strncmp(to->text.bytes + line, "err", 3);
    }
    close(door);
    to->at = 11;
    return is_right && replies == count + 1 && to->text.size > 11 && !memcmp(to->text.bytes, "ok session\n", 11);
}

/* The answers of the log itself, which is followed beside whoever writes it. */
static bool log_tells(const char *folder, const text *lines, answers *to) {
    char path[PATH_MAX];
    int size = snprintf(path, sizeof path, "%s/segdag/log", folder);
    segdag_store *store = NULL;
    segdag_open_options options = SEGDAG_OPEN_OPTIONS_INIT;
    options.flags = SEGDAG_OPEN_FOLLOW;
    options.cache = 1;
    if (size < 0 || (size_t)size >= sizeof path || segdag_store_open(path, &options, &store) != SEGDAG_OK) return false;
    segdag_text reply = SEGDAG_TEXT_INIT;
    bool is_right = true;
    for (char *line = lines->bytes, *end; is_right && (end = strchr(line, '\n')); line = end + 1) {
        text asked = {0};
        put(&asked, "0 ", 2);
        put(&asked, line, (size_t)(end - line));
        is_right = segdag_store_line(store, asked.bytes, asked.size, &reply) == SEGDAG_OK;
        if (is_right) put(&to->text, reply.bytes, reply.size);
        segdag_text_free(&reply);
        free(asked.bytes);
    }
    segdag_store_close(store);
    return is_right;
}

/* The next line of the answers, without its end; none where there is none. */
static char *next(answers *from) {
    char *line = from->text.bytes + from->at;
    char *end = from->text.bytes && from->at < from->text.size ? memchr(line, '\n', from->text.size - from->at) : NULL;
    if (!end) return NULL;
    *end = 0;
    from->at = (size_t)(end - from->text.bytes) + 1;
    return line;
}

/* A number behind `ok`, of nine digits at most; -1 where the line is none. A log without the mark has no stand-ins. */
static long number(answers *from, bool is_of_stand_ins) {
    char *line = next(from);
    if (line && is_of_stand_ins && !strcmp(line, "err unknown " MARK)) return 0;
    if (!line || strncmp(line, "ok ", 3)) return -1;
    size_t digits = strspn(line + 3, "0123456789");
    return digits && digits < 10 && !line[3 + digits] ? strtol(line + 3, NULL, 10) : -1;
}

/* ---- the answer */

/* The counts that a question asks for, as expressions; how many they are. */
static int expressions(const question *asked, char *const *names, text *to) {
    if (asked->form == IS_ANCESTOR) return print(to, "inter(%s,ancestors(%s))\n", names[0], names[1]), 1;
    if (asked->form == RANGE) return print(to, "only(%s,%s)\n", names[1], names[0]), 1;
    for (int at = 1; at < asked->count; at++) print(to, "only(%s,%s)\nonly(%s,%s)\n", names[at], names[0], names[0], names[at]);
    return 2 * (asked->count - 1);
}

/* The lines of a question: a query, or each count and what of it are stand-ins. */
static int lines_of(const question *asked, char *const *names, text *to) {
    if (asked->form <= MERGE_BASES) return print(to, "query gca(union(%s,%s))\n", names[0], names[1]), 1;
    text all = {0};
    int count = expressions(asked, names, &all);
    for (char *part = all.bytes, *end; (end = strchr(part, '\n')); part = end + 1) {
        *end = 0;
        print(to, "count %s\ncount inter(%s," STAND_INS ")\n", part, part);
    }
    free(all.bytes);
    return 2 * count;
}

/* The text of the answer, and its status; false where it is none that can be told here. */
static bool read_answer(const question *asked, answers *from, text *to, int *status) {
    if (asked->form <= MERGE_BASES) {
        char *base = NULL, *line;
        long count = 0;
        while ((line = next(from)) && is_name(line)) {
            count++;
            /* Two commits that have stand-ins have the mark in common, which is no commit. */
            if (strcmp(line, MARK)) {
                if (base) return false; /* of several git tells the youngest first */
                base = line;
            }
        }
        char end[32];
        snprintf(end, sizeof end, "ok %ld", count);
        if (!line || strcmp(line, end)) return false;
        if (base) print(to, "%s\n", base);
        *status = !base;
        return true;
    }
    long counts[2 * FEW];
    int size = asked->form == AHEAD_BEHIND ? 2 * (asked->count - 1) : 1;
    for (int at = 0; at < size; at++) {
        long all = number(from, false), unreal = number(from, true);
        if (all < 0 || unreal < 0) return false;
        counts[at] = all - unreal;
    }
    if (asked->form == IS_ANCESTOR) *status = !counts[0];
    if (asked->form == RANGE) print(to, "%ld\n", counts[0]);
    for (int at = 1; asked->form == AHEAD_BEHIND && at < asked->count; at++) {
        put(to, asked->revisions[at], strlen(asked->revisions[at]));
        print(to, " %ld %ld\n", counts[2 * at - 2], counts[2 * at - 1]);
    }
    return true;
}

static bool answer(const question *asked, text *to, int *status) {
    repository found = {0};
    text lines = {0};
    answers told = {0};
    if (!look(&found, asked) || has_other_parents(found.folder)) return false;
    int count = lines_of(asked, found.names, &lines);
    if (!daemon_tells(found.folder, &lines, count, &told)) {
        told = (answers){0};
        if (!log_tells(found.folder, &lines, &told)) return false;
    }
    return read_answer(asked, &told, to, status) && !next(&told);
}

int main(int count, char **given) {
    /* As git does, of the first three descriptors those that are closed are /dev/null, so that no other file is taken for one of them. */
    for (int place; (place = open("/dev/null", O_RDWR)) <= 2;)
        if (place < 0) return 128;
    words = given;
    signal(SIGPIPE, SIG_IGN), signal(SIGXFSZ, SIG_IGN);
    question asked = {0};
    text told = {0};
    int status = 0;
    if (!read_question(&asked, count, given) || !answer(&asked, &told, &status)) {
        signal(SIGPIPE, SIG_DFL), signal(SIGXFSZ, SIG_DFL);
        leave();
    }
    for (size_t at = 0; at < told.size;) {
        ssize_t size = write(1, told.bytes + at, told.size - at);
        if (size < 0 && errno == EINTR) continue;
        if (size < 0) {
            if (errno != EPIPE) fprintf(stderr, "fatal: %s\n", strerror(errno));
            return 128;
        }
        at += (size_t)size;
    }
    return status;
}
