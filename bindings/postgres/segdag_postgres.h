/* Logs in PostgreSQL, for any number of writers on any machines. Link libsegdag_postgres.a with -lpq, or libsegdag_postgres.so: it has all of
   libsegdag, too. docs/POSTGRES.md says how a database is set up, what is stored when, and what each fault gives.

   A store of these is as one over a file: the calls of segdag.h are made with it, sixteen sessions and all. A flush, a strip, a clone and a pull
   are one transaction each, and are answered behind its COMMIT. They, a reload and `levels` first take what others stored since; all
   other calls speak with no database. Where the connection is lost while nothing was begun it is made again, for as long as
   segdag_postgres_patience says.

   Codes beside those of segdag.h:
     SEGDAG_UNSURE    it isn't known whether the change is stored, and the store is closed. Open it again to see, before anything is tried again.
     SEGDAG_GONE      there is no connection: nothing was stored.
     SEGDAG_RACED     another writer stored at the same place: nothing was stored, and the store is closed.
     SEGDAG_STALE     the server is no primary, or was one before a newer one that this store has seen, or has changes that aren't sure, or lacks the
                      standby that the log wants: nothing was stored or taken.
     SEGDAG_DATABASE  the database refused a statement: nothing was stored.
     SEGDAG_LOCKED    the lock of the log wasn't had within the database's lock_timeout: nothing was stored.
     SEGDAG_REPLACED  the log was written anew, or isn't there, or what the store took of it isn't in it: open it again.
   A store that isn't closed by such an end goes on, with its sessions and their pending commits. segdag_last_error has what the database said. */
#ifndef SEGDAG_POSTGRES_H
#define SEGDAG_POSTGRES_H
#include "segdag.h"
#ifdef __cplusplus
extern "C" {
#endif

/* Makes an empty log of this name; SEGDAG_NOT_EMPTY where there is one. */
segdag_code segdag_postgres_create(const char *conninfo, const char *log);

/* Opens the log for writing; SEGDAG_NOT_OPENED where the server can't be reached or has no such log. conninfo is what psql takes: a URL, or words
   with several hosts; unless it says another thing, target_session_attrs=read-write and connect_timeout=10. Room for this many names
   of mirrors, at least 1. *store is NULL unless the code is 0. */
segdag_code segdag_postgres_open(const char *conninfo, const char *log, uint32_t cache, segdag_store **store);

/* Opens it for asking alone, over a primary or a standby. A flush, a strip, a clone and a pull are refused with SEGDAG_READ_ONLY. */
segdag_code segdag_postgres_follow(const char *conninfo, const char *log, uint32_t cache, segdag_store **store);

/* Waits until something was stored, for so many milliseconds at most, and takes it: *count says how many changes came, 0 where none did. */
segdag_code segdag_postgres_wait(segdag_store *store, uint32_t milliseconds, uint64_t *count);

/* For how many milliseconds a store tries to get a connection again, and waits for what came to be sure; 5000 at first. Where the store is
   NULL, those that this thread opens from now on. */
segdag_code segdag_postgres_patience(segdag_store *store, uint32_t milliseconds);

/* Up to which byte of the log the store has taken it, and at which byte the last change begins that it stored itself; 0 where there is none. */
segdag_code segdag_postgres_end(segdag_store *store, uint64_t *end, uint64_t *own);

/* Whom the two calls below ask, of this thread and from now on, how far they have come and whether to go on; NULL: nobody. They ask before each
   row and each 2^20 bytes that are read, once before they look whether the bytes are a log, and before each piece that is written. What is
   cancelled is SEGDAG_CANCELLED: the log is as it was, and the file isn't there. */
segdag_code segdag_postgres_progress(segdag_progress_call call, void *context);

/* Writes the log's bytes into a file, which must not be there: what one program would have written for the same lines. `chain`, where it isn't
   NULL, gets what the log's last row is known by, as 64 hex digits. */
segdag_code segdag_postgres_export(const char *conninfo, const char *log, const char *path, char chain[65]);

/* Takes the log at the path, which no program may have open, into the log of this name. It has to be empty; or, where `chain` isn't NULL,
   to end with the row that is known so: then it is written anew, which only the owner of the tables may do, and SEGDAG_RACED says that
   something was stored since. */
segdag_code segdag_postgres_import(const char *conninfo, const char *log, const char *path, const char *chain);

#ifdef __cplusplus
}
#endif
#endif
