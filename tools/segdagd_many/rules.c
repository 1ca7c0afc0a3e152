/* The configuration: which mirrors logs have, and who may read and write them. It is read as a whole, and one that is wrong changes nothing. */
#include "many.h"
#include <errno.h>
#include <fnmatch.h>
#include <grp.h>
#include <pwd.h>
#include <stdio.h>
#include <stdlib.h>
#include <string.h>
#include <sys/socket.h>
#include <unistd.h>

#define RULE_LINE 4096
#define PEER_GROUPS 65536 /* as many as the system lets a process have */

typedef enum kind { MIRROR, READ, WRITE } kind;
typedef enum whose { OF_ALL, OF_USER, OF_GROUP } whose;

/* A line: of which logs it is, and the mirror's path or the peer. */
typedef struct rule {
    kind kind;
    char *logs, *mirror;
    whose whose;
    id_t number;
} rule;

typedef struct rules {
    rule *rules;
    size_t count;
    bool has_rights; /* without any all may do all */
    struct stat file;
} rules;

static pthread_rwlock_t lock = PTHREAD_RWLOCK_INITIALIZER;
static rules kept;
atomic_uint rules_version = 1;

/* ---- reading */

static void rules_free(rules *of) {
    for (size_t i = 0; i < of->count; i++) {
        free(of->rules[i].logs);
        free(of->rules[i].mirror);
    }
    free(of->rules);
    *of = (rules){0};
}

static bool number_from(const char *text, id_t *number) {
    char *end;
    errno = 0;
    unsigned long value = strtoul(text, &end, 10);
    *number = (id_t)value;
    return *text >= '0' && *text <= '9' && !*end && !errno && value < (id_t)-1;
}

/* A peer: `all`, `user:` or `group:` and a name or a number. */
static const char *read_peer(rule *made, const char *word) {
    if (!strcmp(word, "all"))
        return NULL;
    if (!strncmp(word, "user:", 5)) {
        const struct passwd *user = getpwnam(word + 5);
        made->whose = OF_USER;
        made->number = user ? user->pw_uid : 0;
        return user || number_from(word + 5, &made->number) ? NULL : "no such user";
    }
    if (!strncmp(word, "group:", 6)) {
        const struct group *group = getgrnam(word + 6);
        made->whose = OF_GROUP;
        made->number = group ? group->gr_gid : 0;
        return group || number_from(word + 6, &made->number) ? NULL : "no such group";
    }
    return "expected all, user:NAME or group:NAME";
}

static const char *path_of(const char *mirror) {
    return strncmp(mirror, "bundle:", 7) ? mirror : mirror + 7;
}

static const char *read_rule(rules *to, char *line) {
    char *at = NULL;
    const char *verb = strtok_r(line, " \t\r\n", &at), *logs = strtok_r(NULL, " \t\r\n", &at), *word = strtok_r(NULL, " \t\r\n", &at);
    if (!verb || *verb == '#')
        return NULL;
    bool is_mirror = !strcmp(verb, "mirror"), writes = !strcmp(verb, "write");
    if (!is_mirror && !writes && strcmp(verb, "read"))
        return "expected mirror, read or write at the beginning of the line";
    if (!logs || !word || strtok_r(NULL, " \t\r\n", &at))
        return "expected two words after the first: logs, and a mirror or a peer";
    if (is_mirror && (!strncmp(word, "pipe:", 5) || (root_is_database() && *path_of(word) != '/')))
        return "expected a path or bundle:PATH for a mirror; it must be absolute where the logs are in a database";
    void *grown = realloc(to->rules, (to->count + 1) * sizeof *to->rules);
    if (!grown)
        return "out of memory";
    to->rules = grown;
    rule *made = &to->rules[to->count++];
    *made = (rule){.kind = is_mirror ? MIRROR : writes ? WRITE : READ, .logs = strdup(logs), .mirror = is_mirror ? strdup(word) : NULL};
    if (!made->logs || (is_mirror && !made->mirror))
        return "out of memory";
    to->has_rights = to->has_rights || !is_mirror;
    return is_mirror ? NULL : read_peer(made, word);
}

static const char *read_all(rules *to, FILE *file, unsigned *number) {
    char line[RULE_LINE];
    const char *wrong = fstat(fileno(file), &to->file) ? strerror(errno) : S_ISREG(to->file.st_mode) ? NULL : "not a regular file";
    while (!wrong && fgets(line, sizeof line, file)) {
        ++*number;
        wrong = strlen(line) == sizeof line - 1 ? "the line is too long" : read_rule(to, line);
    }
    return wrong ? wrong : ferror(file) ? strerror(errno) : NULL;
}

bool rules_read(void) {
    if (!many.config)
        return true;
    rules made = {0};
    unsigned number = 0;
    FILE *file = fopen(many.config, "re");
    const char *wrong = file ? read_all(&made, file, &number) : strerror(errno);
    if (file)
        fclose(file);
    if (wrong) {
        say("%s:%u: %s", many.config, number, wrong);
        rules_free(&made);
        return false;
    }
    pthread_rwlock_wrlock(&lock);
    rules before = kept;
    kept = made;
    atomic_fetch_add(&rules_version, 1);
    pthread_rwlock_unlock(&lock);
    rules_free(&before);
    return true;
}

/* ---- asking */

static bool is_of(const rule *one, const char *log) {
    return !fnmatch(one->logs, log, FNM_NOESCAPE);
}

/* Who is at the other end of a connection, as the system had it when it was made. */
typedef struct peer {
    struct ucred who;
    gid_t *groups;
    size_t count;
} peer;

static bool peer_of(int fd, peer *found) {
    socklen_t size = sizeof found->who, room = PEER_GROUPS * sizeof(gid_t);
    *found = (peer){0};
    if (getsockopt(fd, SOL_SOCKET, SO_PEERCRED, &found->who, &size))
        return false;
    found->groups = malloc(room);
    if (found->groups && !getsockopt(fd, SOL_SOCKET, SO_PEERGROUPS, found->groups, &room))
        found->count = room / sizeof(gid_t);
    return true;
}

static bool is_peer(const rule *one, const peer *of) {
    bool is_it = one->whose == OF_ALL || (one->whose == OF_USER && one->number == of->who.uid) || (one->whose == OF_GROUP && one->number == of->who.gid);
    for (size_t i = 0; i < of->count && !is_it && one->whose == OF_GROUP; i++)
        is_it = of->groups[i] == one->number;
    return is_it;
}

/* Who runs the server, and the system's own user, may all. */
unsigned rules_rights(int fd, const char *log) {
    unsigned may = 0;
    peer of;
    pthread_rwlock_rdlock(&lock);
    if (!kept.has_rights) {
        may = MAY_READ | MAY_WRITE;
    } else if (peer_of(fd, &of)) {
        if (of.who.uid == 0 || of.who.uid == geteuid())
            may = MAY_READ | MAY_WRITE;
        for (size_t i = 0; i < kept.count && may != (MAY_READ | MAY_WRITE); i++)
            if (kept.rules[i].kind != MIRROR && is_of(&kept.rules[i], log) && is_peer(&kept.rules[i], &of))
                may |= kept.rules[i].kind == WRITE ? MAY_READ | MAY_WRITE : MAY_READ;
        free(of.groups);
    }
    pthread_rwlock_unlock(&lock);
    return may;
}

bool rules_have(const struct stat *file) {
    pthread_rwlock_rdlock(&lock);
    bool is_it = many.config && kept.file.st_ino == file->st_ino && kept.file.st_dev == file->st_dev;
    pthread_rwlock_unlock(&lock);
    return is_it;
}

bool rules_have_mirror(const char *log) {
    bool has_any = false;
    pthread_rwlock_rdlock(&lock);
    for (size_t i = 0; i < kept.count && !has_any; i++)
        has_any = kept.rules[i].kind == MIRROR && is_of(&kept.rules[i], log);
    pthread_rwlock_unlock(&lock);
    return has_any;
}

/* The word of a mirror of this log, in which the log's name stands for the first star, and a path that doesn't begin at the top for one below
   the root. NULL where it has no room. */
static const char *word_of(const char *mirror, const char *log, char *word, size_t room) {
    const char *path = path_of(mirror), *star = strchr(path, '*');
    int size = snprintf(word, room, "%s%s%s%.*s%s%s", path == mirror ? "" : "bundle:", *path == '/' ? "" : many.root, *path == '/' ? "" : "/",
                        star ? (int)(star - path) : (int)strlen(path), path, star ? log : "", star ? star + 1 : "");
    return size > 0 && (size_t)size < room ? word : NULL;
}

/* The words of a log's mirrors, each ended by a byte 0; false where there is no memory. */
static bool words_of(const char *log, bytes *words) {
    char word[RULE_LINE + 2 * NAME_ROOM];
    bool has_room = true;
    pthread_rwlock_rdlock(&lock);
    for (size_t i = 0; i < kept.count && has_room; i++)
        if (kept.rules[i].kind == MIRROR && is_of(&kept.rules[i], log) && word_of(kept.rules[i].mirror, log, word, sizeof word))
            has_room = bytes_put(words, word, strlen(word) + 1);
    pthread_rwlock_unlock(&lock);
    return has_room;
}

/* The files are read while nobody waits for the configuration. */
segdag_code rules_add_mirrors(const char *log, segdag_store *store) {
    bytes words = {0};
    segdag_code status = words_of(log, &words) ? SEGDAG_OK : SEGDAG_MEMORY;
    for (; status == SEGDAG_OK && words.at < words.size; words.at += strlen(words.bytes + words.at) + 1)
        status = segdag_mirror_add(store, words.bytes + words.at);
    free(words.bytes);
    return status;
}
