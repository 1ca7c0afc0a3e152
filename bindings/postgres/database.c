/* A connection to the database that keeps a log. No proof covers it. */
#define _GNU_SOURCE
#include "database.h"
#include <errno.h>
#include <inttypes.h>
#include <poll.h>
#include <stdarg.h>
#include <stdio.h>
#include <stdlib.h>
#include <string.h>
#include <time.h>

/* The version of schema.sql. */
#define VERSION 1

/* The pauses between two tries to connect, in milliseconds. */
#define FIRST_PAUSE 10
#define LONGEST_PAUSE 400

_Thread_local uint32_t database_patience = 5000;

/* ---- what went wrong */

void database_tell(const char *format, ...) {
    char text[512];
    va_list arguments;
    va_start(arguments, format);
    vsnprintf(text, sizeof text, format, arguments);
    va_end(arguments);
    size_t size = strlen(text);
    while (size && text[size - 1] == '\n')
        text[--size] = 0;
    error_text("%s", text);
}

bool database_is_lost(segdag_code status) {
    return status == SEGDAG_GONE || status == SEGDAG_STALE;
}

static bool begins(const char *text, const char *front) {
    return !strncmp(text, front, strlen(front));
}

segdag_code database_status(database *base, const PGresult *result) {
    const char *state = result ? PQresultErrorField(result, PG_DIAG_SQLSTATE) : NULL;
    const char *text = result ? PQresultErrorMessage(result) : "";
    database_tell("%s", *text ? text : PQerrorMessage(base->link));
    if (!state || PQstatus(base->link) == CONNECTION_BAD || begins(state, "57P") || begins(state, "08"))
        return SEGDAG_GONE;
    if (begins(state, "25006"))
        return SEGDAG_STALE;
    if (begins(state, "23505"))
        return SEGDAG_RACED;
    if (begins(state, "55P03"))
        return SEGDAG_LOCKED;
    return SEGDAG_DATABASE;
}

/* A warning within COMMIT says that it was cut short: what it did is there, and may be on this machine alone. */
static void hear(void *kept, const PGresult *result) {
    const char *severity = PQresultErrorField(result, PG_DIAG_SEVERITY_NONLOCALIZED);
    if (severity && !strcmp(severity, "WARNING")) {
        ((database *)kept)->was_warned = true;
        database_tell("%s", PQresultErrorMessage(result));
    }
}

/* ---- time */

int64_t clock_now(void) {
    struct timespec now;
    clock_gettime(CLOCK_MONOTONIC, &now);
    return (int64_t)now.tv_sec * 1000 + now.tv_nsec / 1000000;
}

void clock_pause(long milliseconds) {
    struct timespec left = {milliseconds / 1000, milliseconds % 1000 * 1000000};
    while (nanosleep(&left, &left) && errno == EINTR)
        ;
}

bool database_hears(database *base, long milliseconds) {
    struct pollfd fd = {.fd = PQsocket(base->link), .events = POLLIN};
    return milliseconds > 0 && poll(&fd, 1, (int)(milliseconds > INT32_MAX ? INT32_MAX : milliseconds)) > 0;
}

/* ---- statements */

int64_t number_at(const PGresult *result, int column) {
    const uint8_t *bytes = (const uint8_t *)PQgetvalue(result, 0, column);
    uint64_t number = 0;
    for (int i = 0; i < PQgetlength(result, 0, column); i++)
        number = number << 8 | bytes[i];
    return (int64_t)number;
}

parameter number_of(char room[24], int64_t number) {
    snprintf(room, 24, "%" PRId64, number);
    return (parameter){room, 0, false};
}

/* Takes the results of what was sent ahead. */
static void take_sent(database *base) {
    if (base->has_sent && PQpipelineStatus(base->link) != PQ_PIPELINE_OFF)
        database_pipe_end(base);
    for (PGresult *result; base->has_sent && (result = PQgetResult(base->link));)
        PQclear(result);
    base->has_sent = false;
}

segdag_code database_do(database *base, const char *text) {
    take_sent(base);
    PGresult *result = PQexec(base->link, text);
    ExecStatusType end = PQresultStatus(result);
    segdag_code status = end == PGRES_COMMAND_OK || end == PGRES_TUPLES_OK ? SEGDAG_OK : database_status(base, result);
    PQclear(result);
    return status;
}

/* The most parameters of a statement. */
#define MOST 8

segdag_code database_send(database *base, const char *statement, const parameter *parameters, int count) {
    const char *values[MOST];
    int sizes[MOST], formats[MOST];
    for (int i = 0; i < count; i++) {
        values[i] = parameters[i].bytes;
        sizes[i] = (int)parameters[i].size;
        formats[i] = parameters[i].is_binary;
    }
    take_sent(base);
    bool is_sent = PQsendQueryPrepared(base->link, statement, count, values, sizes, formats, 1);
    return is_sent ? SEGDAG_OK : database_status(base, NULL);
}

segdag_code database_one_by_one(database *base) {
    return PQsetSingleRowMode(base->link) ? SEGDAG_OK : database_status(base, NULL);
}

segdag_code database_next(database *base, PGresult **row) {
    *row = PQgetResult(base->link);
    ExecStatusType end = *row ? PQresultStatus(*row) : PGRES_TUPLES_OK;
    if (end == PGRES_SINGLE_TUPLE || (end == PGRES_TUPLES_OK && *row && PQntuples(*row) == 1))
        return SEGDAG_OK;
    segdag_code status = end == PGRES_TUPLES_OK || end == PGRES_COMMAND_OK ? SEGDAG_OK : database_status(base, *row);
    bool is_end = *row == NULL;
    PQclear(*row);
    *row = NULL;
    for (PGresult *rest; !is_end && (rest = PQgetResult(base->link));)
        PQclear(rest);
    return status;
}

segdag_code database_first(database *base, PGresult **row) {
    PGresult *rest = NULL;
    segdag_code status = database_next(base, row);
    if (status == SEGDAG_OK && *row)
        status = database_next(base, &rest);
    if (status == SEGDAG_OK)
        return status;
    PQclear(*row);
    *row = NULL;
    return status;
}

segdag_code database_ask(database *base, const char *statement, const parameter *parameters, int count, PGresult **row) {
    *row = NULL;
    segdag_code status = database_send(base, statement, parameters, count);
    return status ? status : database_first(base, row);
}

/* ---- what is sent in one go */

segdag_code database_pipe(database *base) {
    take_sent(base);
    return PQenterPipelineMode(base->link) ? SEGDAG_OK : database_status(base, NULL);
}

segdag_code database_pipe_text(database *base, const char *text) {
    return PQsendQueryParams(base->link, text, 0, NULL, NULL, NULL, NULL, 1) ? SEGDAG_OK : database_status(base, NULL);
}

segdag_code database_pipe_send(database *base) {
    return PQpipelineSync(base->link) ? SEGDAG_OK : database_status(base, NULL);
}

/* Between two statements there is one NULL; behind the last one, or where the connection is lost, there are more. */
void database_pipe_end(database *base) {
    for (int ends = 0; ends < 2;) {
        PGresult *result = PQgetResult(base->link);
        bool is_last = PQresultStatus(result) == PGRES_PIPELINE_SYNC;
        ends = is_last ? 2 : result ? 0 : ends + 1;
        PQclear(result);
    }
    PQexitPipelineMode(base->link);
}

/* ---- connections */

void database_leave(database *base) {
    if (base->link)
        PQfinish(base->link);
    base->link = NULL;
    base->listens = base->has_sent = false;
}

/* An acknowledged change has to be on the disk, and on that of the standby where the server waits for one. No statement is cut short, and
   who stops amid a change keeps others waiting for a minute at most. */
static const char *const settings[] = {
#ifdef SEGDAG_PLANT_ASYNCHRONOUS
    "set synchronous_commit = local",
#else
    "select set_config('synchronous_commit', 'on', false) where current_setting('synchronous_commit') not in ('on', 'remote_apply')",
#endif
    "select set_config('idle_in_transaction_session_timeout', '60s', false) where current_setting('idle_in_transaction_session_timeout') = '0'",
    "set statement_timeout = 0",
    "set standard_conforming_strings = on",
};

/* In `rows` the row before the place comes without its bytes: it has to be the one that is known. */
static const char *const statements[][2] = {
    {"about", "select pg_is_in_recovery(), case when pg_is_in_recovery() then greatest(r.min_recovery_end_timeline, c.timeline_id)"
              " else ('x' || left(pg_walfile_name(pg_current_wal_lsn()), 8))::bit(32)::int end, s.system_identifier::text,"
              " current_setting('fsync'), (select max(version) from segdag.version)"
              " from pg_control_recovery() r, pg_control_checkpoint() c, pg_control_system() s"},
#ifdef SEGDAG_PLANT_NO_LOCK
    {"lock", "select id, wants_standby and current_setting('synchronous_standby_names') = '' from segdag.log where name = $1"},
#else
    {"lock", "select id, wants_standby and current_setting('synchronous_standby_names') = '' from segdag.log where name = $1 for no key update"},
#endif
    {"rows", "select l.id, l.generation, not pg_is_in_recovery() and current_setting('synchronous_standby_names') <> '', c.at, c.chain,"
             " case when c.at >= $2 then c.bytes end from segdag.log l left join segdag.change c"
             " on c.log = l.id and c.generation = l.generation and c.at >= $3 where l.name = $1 order by c.at"},
    {"store", "insert into segdag.change (log, generation, at, bytes, chain) values ($1, $2, $3, $4, sha256($5::bytea || $4)) returning chain"},
    {"create", "insert into segdag.log (name) values ($1) on conflict do nothing returning id"},
    {"look", "select chain from segdag.change where log = $1 and generation = $2 and at = $3 and bytes = $4 and chain = sha256($5::bytea || $4)"},
};

static segdag_code prepare(database *base) {
    for (size_t i = 0; i < sizeof settings / sizeof *settings; i++) {
        segdag_code status = database_do(base, settings[i]);
        if (status)
            return status;
    }
    for (size_t i = 0; i < sizeof statements / sizeof *statements; i++) {
        PGresult *result = PQprepare(base->link, statements[i][0], statements[i][1], 0, NULL);
        bool is_made = PQresultStatus(result) == PGRES_COMMAND_OK;
        segdag_code status = is_made ? SEGDAG_OK : database_status(base, result);
        const char *state = is_made ? NULL : PQresultErrorField(result, PG_DIAG_SQLSTATE);
        if (state && (begins(state, "42P01") || begins(state, "3F000")))
            database_tell("the database has no tables of segdag: run schema.sql in it");
        PQclear(result);
        if (status)
            return status;
    }
    return SEGDAG_OK;
}

/* Whether the server that answered is one that may be asked, and, unless it is only followed, written to. */
static segdag_code check(database *base, const PGresult *about) {
    bool is_standby = number_at(about, 0);
    uint32_t timeline = (uint32_t)number_at(about, 1);
    const char *system = PQgetvalue(about, 0, 2);
    if (number_at(about, 4) != VERSION) {
        database_tell("the database has version %" PRId64 " of segdag's tables, and this library needs version %d", number_at(about, 4), VERSION);
        return SEGDAG_DATABASE;
    }
    if (is_standby && !base->follows) {
        database_tell("the server is a standby, which takes no changes: name the primary in the connection string");
        return SEGDAG_STALE;
    }
    if (!base->follows && strcmp(PQgetvalue(about, 0, 3), "on")) {
        database_tell("fsync is off on the server, so an acknowledged change could be lost: turn it on to write a log there");
        return SEGDAG_DATABASE;
    }
    bool is_same = !strcmp(system, base->system);
    if (is_same && timeline < base->timeline) {
        database_tell("the server is on timeline %u, but timeline %u was seen earlier: it is no longer the primary",
            timeline, base->timeline);
        return SEGDAG_STALE;
    }
    snprintf(base->system, sizeof base->system, "%s", system);
    base->timeline = timeline;
    return SEGDAG_OK;
}

/* What is wanted of a connection where its words say nothing else: a peer that is gone is found out in half a minute. */
static PGconn *connect_by(const char *conninfo, bool follows) {
    const char *words[] = {"connect_timeout", "keepalives_idle", "keepalives_interval", "keepalives_count", "tcp_user_timeout",
        "fallback_application_name", "target_session_attrs", "dbname", NULL};
    const char *values[] = {"10", "10", "5", "3", "30000", "segdag", follows ? "any" : "read-write", conninfo, NULL};
    return PQconnectdbParams(words, values, 1);
}

static segdag_code connect_once(database *base) {
    base->link = connect_by(base->conninfo, base->follows);
    if (!base->link)
        return SEGDAG_MEMORY;
    if (PQstatus(base->link) != CONNECTION_OK) {
        database_tell("%s", PQerrorMessage(base->link));
        return SEGDAG_GONE;
    }
    PQsetNoticeReceiver(base->link, hear, base);
    segdag_code status = prepare(base);
    PGresult *about = NULL;
    if (status == SEGDAG_OK)
        status = database_ask(base, "about", NULL, 0, &about);
    if (status == SEGDAG_OK)
        status = check(base, about);
    PQclear(about);
    return status;
}

segdag_code database_reach(database *base, bool waits) {
    int64_t end = clock_now() + (waits ? base->patience : 0);
    for (long pause = FIRST_PAUSE;; pause = pause * 2 < LONGEST_PAUSE ? pause * 2 : LONGEST_PAUSE) {
        if (base->link && PQstatus(base->link) == CONNECTION_OK)
            return SEGDAG_OK;
        database_leave(base);
        segdag_code status = connect_once(base);
        if (status == SEGDAG_OK)
            return SEGDAG_OK;
        database_leave(base);
        if (!database_is_lost(status) || clock_now() + pause > end)
            return status;
        clock_pause(pause);
    }
}

segdag_code database_make(database *made, const char *conninfo, const char *log, bool follows) {
    *made = (database){.follows = follows, .patience = database_patience};
    made->conninfo = strdup(conninfo);
    made->log = strdup(log);
    return made->conninfo && made->log ? SEGDAG_OK : SEGDAG_MEMORY;
}

void database_free(database *base) {
    database_leave(base);
    free(base->conninfo);
    free(base->log);
    *base = (database){0};
}
