/* Lines of a client, each with its reply, as a store answers them. */
#include "many.h"
#include <stdio.h>
#include <stdlib.h>
#include <string.h>

/* A client goes on for so many nanoseconds at most while others wait. */
#define TURN_TIME 5000000

static _Thread_local segdag_text reply;
atomic_uint lines_under_way;

static const char *const changing[] = {"add", "flush", "strip", "clone", "pull", "drop", NULL};
static const char *const storing[] = {"flush", "strip", "clone", "pull", "reload", NULL};
static const char *const asking_mirrors[] = {"clone", "pull", NULL};

static bool begins(const char *line, size_t size, const char *const *words) {
    const char *space = memchr(line, ' ', size);
    size_t word = space ? (size_t)(space - line) : size;
    for (; *words; words++)
        if (strlen(*words) == word && !memcmp(*words, line, word))
            return true;
    return false;
}

static void put(client *one, const char *text) {
    client_put(one, text, strlen(text));
}

/* ---- the first line */

static const char *refused_use(segdag_code status) {
    switch (status) {
    case SEGDAG_NO_LOG:
        return "err use damaged\n";
    case SEGDAG_FOREIGN:
        return "err use foreign\n";
    case SEGDAG_LOCKED:
        return "err use locked\n";
    case SEGDAG_MEMORY:
        return "err use memory\n";
    case SEGDAG_DISK:
        return "err use disk\n";
    case SEGDAG_STALE:
        return "err use stale\n";
    default:
        return root_is_database() ? "err use database\n" : "err use file\n";
    }
}

static void look_at_rights(client *one, const char *log) {
    one->rules = atomic_load(&rules_version);
    one->may = rules_rights(one->fd, log);
}

static void use(client *one, const char *line, size_t size) {
    char name[NAME_ROOM];
    if (size < 4 || memcmp(line, "use ", 4)) {
        put(one, "err use first\n");
        return;
    }
    if (!name_is_fine(line + 4, size - 4)) {
        put(one, "err use name\n");
        return;
    }
    memcpy(name, line + 4, size - 4);
    name[size - 4] = 0;
    look_at_rights(one, name);
    if (!(one->may & MAY_READ)) {
        put(one, "err use rights\n");
        return;
    }
    kept_log *log = log_of(name);
    segdag_code status = log ? log_try(log, one->may & MAY_WRITE) : SEGDAG_MEMORY;
    if (status == SEGDAG_OK) {
        number_add(N_USES, 1);
        one->log = log;
        put(one, "ok use\n");
    } else {
        put(one, refused_use(status));
        if (log)
            log_leave(log);
    }
    logs_trim();
}

static void stats(client *one) {
    char text[200];
    snprintf(text, sizeof text, "ok stats %llu %llu %llu %llu %llu\n", (unsigned long long)one->told.lines, (unsigned long long)one->told.refused,
             (unsigned long long)one->told.in, (unsigned long long)one->told.out, (unsigned long long)(one->told.nanoseconds / 1000));
    put(one, text);
}

/* ---- a session */

/* What a client is told whose store fails so, by the program's statuses, or GOES_ON where the store goes on. */
static int failure(segdag_code status) {
    switch (status) {
    case SEGDAG_REPLACED:
        return GONE;
    case SEGDAG_NO_LOG:
        return NO_LOG;
    case SEGDAG_FOREIGN:
        return FOREIGN;
    case SEGDAG_NOT_OPENED:
        return NOT_OPENED;
    case SEGDAG_REPLY:
        return NO_MEMORY;
    case SEGDAG_DISK:
    case SEGDAG_CLOSED:
    case SEGDAG_FORKED:
        return DISK;
    case SEGDAG_UNSURE:
        return UNSURE;
    case SEGDAG_GONE:
        return UNREACHED;
    case SEGDAG_RACED:
        return RACED;
    case SEGDAG_STALE:
        return STALE;
    case SEGDAG_LOCKED:
    case SEGDAG_DATABASE:
        return DATABASE;
    default:
        return GOES_ON;
    }
}

/* What a line is refused with where the database refuses it, and the store goes on with all its sessions; else NULL. */
static const char *refused_by_database(const handle *open, segdag_code status) {
    if (!root_is_database() || !open->store->place)
        return NULL;
    switch (status) {
    case SEGDAG_LOCKED:
        return "err locked\n";
    case SEGDAG_GONE:
        return "err gone\n";
    case SEGDAG_STALE:
        return "err stale\n";
    case SEGDAG_DATABASE:
        return "err database\n";
    default:
        return NULL;
    }
}

static void note_base(client *one) {
    one->has_base = true;
    one->base_file = one->handle->file;
    one->base = end_of(one->handle);
}

/* Brings a new session to the newest version. With which number the client is to be told its end, or GOES_ON; `again` where the store was
   closed, and another one may do. */
static int renew(client *one, bool *again) {
    handle *open = one->handle;
    uint64_t rows;
    segdag_code status = root_has(open) ? SEGDAG_OK : SEGDAG_REPLACED;
    if (status == SEGDAG_OK)
        status = segdag_session_discard(open->store, (unsigned)one->session, &rows);
    if (status == SEGDAG_OK)
        status = segdag_session_reload(open->store, (unsigned)one->session, &rows);
    int code = status == SEGDAG_MEMORY ? NO_MEMORY : failure(status);
    if (code != GOES_ON && refused_by_database(open, status)) {
        session_give(one);
        return code;
    }
    if (code != GOES_ON) {
        *again = code == GONE && (!one->has_base || one->base_file != open->file);
        session_fail(one, code);
        return code;
    }
    bool is_same = !one->has_base || (one->base_file == open->file && one->base == end_of(open));
    if (!is_same && !one->moves) {
        code = one->base_file == open->file ? LENT : GONE;
        session_give(one);
        return code;
    }
    one->is_new = one->moves = one->has_rows = false;
    note_base(one);
    return GOES_ON;
}

static void refuse(client *one, segdag_code status) {
    char text[80];
    const char *word = status == SEGDAG_NOT_OPENED || status == SEGDAG_REPLACED ? root_is_database() ? "database" : "file" : segdag_code_name(status);
    snprintf(text, sizeof text, "err open %s\n", word);
    put(one, text);
}

/* Gets the client a session for a line. GO_ON where it has one, LATER where it waits. */
static step ready(client *one, bool changes) {
    for (int tries = 0; tries < 5; tries++) {
        segdag_code why;
        bool again = false;
        switch (session_take(one, changes, &why)) {
        case PARKED:
            return LATER;
        case TOLD:
            client_tell(one, atomic_load(&one->doom));
            return DONE;
        case REFUSED:
            refuse(one, why);
            return DONE;
        case HAS_IT:
            break;
        }
        int code = one->is_new ? renew(one, &again) : GOES_ON;
        if (code == GOES_ON)
            return GO_ON;
        if (!again) {
            client_tell(one, code);
            return DONE;
        }
    }
    client_tell(one, GONE);
    return DONE;
}

/* ---- answers */

/* The next line, without its end, and how many bytes it takes; false where none is whole. */
static bool next_line(const client *one, const char **line, size_t *size, size_t *whole) {
    const char *begin = one->in.bytes + one->in.at;
    const char *end = one->in.size > one->in.at ? memchr(begin, '\n', one->in.size - one->in.at) : NULL;
    if (!end)
        return false;
    *line = begin;
    *whole = (size_t)(end - begin) + 1;
    *size = *whole - 1;
    if (*size && begin[*size - 1] == '\r')
        --*size;
    return true;
}

/* Answers a line by the session that it has. Where the store fails so, it is given up: the number, or GOES_ON. */
static int answer(client *one, const char *line, size_t size) {
    char text[LINE + 8];
    int front = snprintf(text, sizeof text, "%d ", one->session);
    memcpy(text + front, line, size);
    size_t whole = (size_t)front + size;
    /* A store takes one return at the end for the line's. */
    if (line[size - 1] == '\r')
        text[whole++] = '\r';
    long long began = now();
    atomic_fetch_add(&lines_under_way, 1);
    segdag_code status = segdag_store_line(one->handle->store, text, whole, &reply);
    atomic_fetch_sub(&lines_under_way, 1);
    const char *word = refused_by_database(one->handle, status);
    int code = word ? GOES_ON : failure(status);
    if (code != GOES_ON)
        return code;
    if (status) {
        word = word ? word : status == SEGDAG_MEMORY ? "err memory\n" : status == SEGDAG_LINE ? "err line 16384\n" : "err syntax\n";
        put(one, word);
        line_told(one, line, size, word, strlen(word), now() - began);
        return GOES_ON;
    }
    const char *last = reply.size < 2 ? NULL : memrchr(reply.bytes, '\n', reply.size - 1);
    last = last ? last + 1 : reply.bytes;
    bool is_done = reply.size >= 2 && !memcmp(last, "ok", 2);
    if (is_done && begins(line, size, storing)) {
        note_base(one);
        number_add(N_CHANGES, line[0] != 'r');
    }
    if (one->handle->store->count && begins(line, size, asking_mirrors))
        root_measure_mirrors(one->handle);
    one->has_rows = one->has_rows || (is_done && size > 3 && !memcmp(line, "add", 3));
    client_put(one, reply.bytes, reply.size);
    line_told(one, line, size, last, reply.size - (size_t)(last - reply.bytes), now() - began);
    return GOES_ON;
}

/* Whether rows are pending, where some may be. */
static void look_at_rows(client *one) {
    segdag_sizes sizes = SEGDAG_SIZES_INIT;
    if (one->has_rows && segdag_session_sizes(one->handle->store, (unsigned)one->session, &sizes) == SEGDAG_OK)
        one->has_rows = sizes.pending > 0;
}

static bool is_stats(const char *line, size_t size) {
    return size == 5 && !memcmp(line, "stats", 5);
}

/* What a line is refused with that no store is asked for; NULL where it isn't. */
static const char *refused(client *one, const char *line, size_t size) {
    if (size > LINE)
        return "err line 16384\n";
    if (one->rules != atomic_load(&rules_version))
        look_at_rights(one, one->log->name);
    return one->may & (begins(line, size, changing) ? MAY_WRITE : MAY_READ) ? NULL : "err rights\n";
}

/* Answers a line that needs no session, or none yet; false where it needs one. */
static bool answer_here(client *one, const char *line, size_t size) {
    if (size == 0 || line[0] == '#')
        return true;
    if (size <= LINE && (is_stats(line, size) || !one->log)) {
        (is_stats(line, size) ? stats(one) : use(one, line, size));
        return true;
    }
    const char *why = one->log ? refused(one, line, size) : "err line 16384\n";
    if (!why)
        return false;
    put(one, why);
    if (one->log && size <= LINE)
        line_told(one, line, size, why, strlen(why), 0);
    return true;
}

/* Lines in a row that the session answers. */
static step turn(client *one) {
    const char *line;
    size_t size, whole;
    long long until = now() + TURN_TIME;
    for (int i = 0; i < TURN && next_line(one, &line, &size, &whole); i++) {
        if (one->handle->follows && begins(line, size, changing) && !refused(one, line, size))
            break;
        if (!answer_here(one, line, size)) {
            int code = answer(one, line, size);
            if (code != GOES_ON) {
                session_fail(one, code);
                client_tell(one, code);
                return DONE;
            }
        }
        one->in.at += whole;
        if (one->is_told || one->out.size - one->out.at >= PIECE || now() > until)
            break;
    }
    look_at_rows(one);
    session_give(one);
    return GO_ON;
}

/* Answers what came, as far as the client takes the replies. LATER where it waits for a session and is woken, DONE where all is done that
   can be. */
step lines_run(client *one) {
    const char *line;
    size_t size, whole;
    while (!one->is_told && one->out.size - one->out.at < PIECE && next_line(one, &line, &size, &whole)) {
        atomic_store(&one->is_known, true);
        step next = answer_here(one, line, size) ? DONE : ready(one, begins(line, size, changing));
        if (next != DONE)
            return next == GO_ON ? turn(one) : next;
        one->in.at += whole;
    }
    return DONE;
}
