/* The rows of a log, as they are read. */
#ifndef SEGDAG_ROWS_H
#define SEGDAG_ROWS_H
#include "database.h"

/* Up to where a log was read: which log it is, the place of its closed gate, and its last row, if there is one. */
typedef struct mark {
    int64_t id, generation;
    uint64_t end, last;
    uint8_t chain[CHAIN];
    size_t chain_size; /* 0 while there is no row */
} mark;

/* What came behind a mark, with room for a closed gate behind it. */
typedef struct rows {
    uint8_t *bytes;
    size_t size, room;
    mark end;        /* up to where it was read */
    bool may_be_new; /* the server is a primary that waits for a standby: what came may not be sure */
} rows;

/* Reads what came behind the mark; an id of 0 is the mark of a log that wasn't read so far. SEGDAG_REPLACED where the log isn't there, was
   written anew, or hasn't the mark's row; SEGDAG_NO_LOG where a row is missing. What was read is the caller's, also behind a failure. */
segdag_code rows_read(database *base, const mark *from, rows *read);

/* Executes a statement that ends a transaction, and makes sure that what this did, and all before it, is where the server waits for it to
   be, on the standby, too. SEGDAG_STALE where the server doesn't say so within the patience. */
segdag_code rows_make_sure(database *base, const char *text);

/* Makes sure that what was read so far survives the loss of the primary: that COMMITs before this are on the standby, too. SEGDAG_STALE
   where that couldn't be had. */
segdag_code rows_confirm(database *base);

/* Begins a transaction and takes the log's lock. */
segdag_code rows_lock(database *base);

/* The same, and then reads what came behind the mark, in one exchange. What is read behind the lock is read by a statement of its own,
   which sees all that was stored before. */
segdag_code rows_lock_and_read(database *base, const mark *from, rows *read);

/* Appends bytes at the mark, in pieces, within a transaction, and moves the mark. */
segdag_code rows_store(database *base, mark *end, const uint8_t *bytes, size_t size);

/* The same, and ends the transaction by COMMIT. Where *is_known is false it isn't known what became of it, whatever the status. `last` is
   the mark in front of the last row, for who looks for it. */
segdag_code rows_commit(database *base, mark *end, const uint8_t *bytes, size_t size, mark *last, bool *is_known);

/* Looks, behind the log's lock, whether this row stands behind the mark, which is then moved: a transaction that may still be under way
   holds the lock until its end. That this one then ends by a COMMIT makes sure of what was found. */
segdag_code rows_look(database *base, mark *last, const uint8_t *bytes, size_t size, bool *is_there);

void rows_free(rows *read);

#endif
