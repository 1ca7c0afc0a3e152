/* A connection to the database that keeps a log, and statements over it. */
#ifndef SEGDAG_DATABASE_H
#define SEGDAG_DATABASE_H
#include "../c/store.h"
#include "segdag_postgres.h"
#include <libpq-fe.h>

/* SHA-256. */
#define CHAIN 32

/* A row has at most so many bytes of a log. */
#ifndef PIECE
#define PIECE ((size_t)16 << 20)
#endif

/* A log has at most so many bytes. */
#define MOST_BYTES ((uint64_t)1 << 30)

typedef struct database {
    char *conninfo, *log;
    bool follows;
    uint32_t patience; /* milliseconds */
    watcher asked;     /* whether the call is to go on */
    PGconn *link;      /* NULL while there is no connection */
    bool was_warned;   /* the server warned since this was last put to false */
    bool listens;      /* this connection hears of what is stored */
    bool has_sent;     /* results of what was sent ahead are still to be taken */
    char system[24];   /* which cluster of servers it was, and the highest timeline that was seen of it */
    uint32_t timeline;
} database;

/* For how many milliseconds those that this thread makes are patient. */
extern _Thread_local uint32_t database_patience;

/* Keeps why the call fails, for segdag_last_error. */
void database_tell(const char *format, ...);

segdag_code database_make(database *made, const char *conninfo, const char *log, bool follows);
void database_free(database *base);

/* Makes sure that there is a connection, to a server that may be asked. It is tried for as long as there is patience where `waits`. */
segdag_code database_reach(database *base, bool waits);

/* Lets the connection go. A transaction that is open ends with it. */
void database_leave(database *base);

/* Executes a statement of no rows and no parameters. */
segdag_code database_do(database *base, const char *text);

/* Executes a prepared statement, of which one row is wanted: it is the caller's, and NULL where there is none. */
typedef struct parameter {
    const void *bytes;
    size_t size;
    bool is_binary;
} parameter;
segdag_code database_ask(database *base, const char *statement, const parameter *parameters, int count, PGresult **row);

/* Sends it; and takes its one row, or lets its rows come one by one, and takes the next of them, NULL behind the last one. */
segdag_code database_send(database *base, const char *statement, const parameter *parameters, int count);
segdag_code database_first(database *base, PGresult **row);
segdag_code database_one_by_one(database *base);
segdag_code database_next(database *base, PGresult **row);

/* Several statements in one go: what is sent behind the first call goes out with `send`, and behind one that fails nothing is executed;
   then their results are taken in order, and `end` lets go of those that weren't. */
segdag_code database_pipe(database *base);
segdag_code database_pipe_text(database *base, const char *text);
segdag_code database_pipe_send(database *base);
void database_pipe_end(database *base);

/* The status of a failure that the server told; it is kept for segdag_last_error. */
segdag_code database_status(database *base, const PGresult *result);

/* Waits until the server says something, for so many milliseconds: whether it did. */
bool database_hears(database *base, long milliseconds);

/* Whether this status says that the connection is of no use any more. */
bool database_is_lost(segdag_code status);

/* Numbers as the server has them. */
int64_t number_at(const PGresult *result, int column);
parameter number_of(char room[24], int64_t number);

/* Milliseconds of a clock that only goes on; a pause. */
int64_t clock_now(void);
void clock_pause(long milliseconds);

#endif
