/* The rows of a log. No proof covers it: it has to give the bytes that were stored, in order and without a gap, and those alone. */
#define _GNU_SOURCE
#include "rows.h"
#include <inttypes.h>
#include <stdlib.h>
#include <string.h>

/* The columns of the statement `rows`. */
enum { ID, GENERATION, MAY_BE_NEW, AT, CHAIN_OF, BYTES };

void rows_free(rows *read) {
    free(read->bytes);
    read->bytes = NULL;
}

/* Whether the row is of the log of the mark, which is told here where it wasn't known. */
static segdag_code check_log(mark *end, const PGresult *row) {
    int64_t id = number_at(row, ID), generation = number_at(row, GENERATION);
    if (end->id == 0) {
        end->id = id;
        end->generation = generation;
    }
    if (end->id == id && end->generation == generation)
        return SEGDAG_OK;
    database_tell("the log was rewritten since it was opened: open it again");
    return SEGDAG_REPLACED;
}

/* Whether the row is the mark's last one. */
static bool is_known(const mark *from, const PGresult *row) {
    return number_at(row, AT) == (int64_t)from->last && PQgetlength(row, 0, CHAIN_OF) == CHAIN && from->chain_size == CHAIN &&
           !memcmp(PQgetvalue(row, 0, CHAIN_OF), from->chain, CHAIN);
}

static segdag_code add_row(rows *read, const PGresult *row) {
    size_t size = (size_t)PQgetlength(row, 0, BYTES);
    uint64_t at = (uint64_t)number_at(row, AT);
    if (at != read->end.end || size == 0 || PQgetlength(row, 0, CHAIN_OF) != CHAIN) {
        database_tell("the log's rows have a gap: one ends at byte %" PRIu64 ", and the next begins at %" PRIu64, read->end.end, at);
        return SEGDAG_NO_LOG;
    }
    if (read->end.end + size >= MOST_BYTES) {
        database_tell("the log has more than 2^30 bytes, the most that a log can have");
        return SEGDAG_NO_LOG;
    }
    void *bytes = read->bytes;
    bool has_room = store_grow(&bytes, &read->room, read->size + size + 1, 1);
    read->bytes = bytes;
    if (!has_room)
        return SEGDAG_MEMORY;
    memcpy(read->bytes + read->size, PQgetvalue(row, 0, BYTES), size);
    read->size += size;
    read->end.end += size;
    read->end.last = at;
    memcpy(read->end.chain, PQgetvalue(row, 0, CHAIN_OF), CHAIN);
    read->end.chain_size = CHAIN;
    return SEGDAG_OK;
}

/* Takes each row as it comes; has_known says whether the mark's last one was among them. */
static segdag_code take_rows(database *base, const mark *from, rows *read, bool *has_log, bool *has_known) {
    segdag_code status = SEGDAG_OK, first = SEGDAG_OK;
    for (PGresult *row; (status = database_next(base, &row)) == SEGDAG_OK && row; PQclear(row)) {
        *has_log = true;
        if (first == SEGDAG_OK)
            first = check_log(&read->end, row);
        if (first == SEGDAG_OK)
            first = watcher_ask(&base->asked, SEGDAG_STAGE_READ, read->end.end, 0);
        read->may_be_new = number_at(row, MAY_BE_NEW);
        if (first || PQgetisnull(row, 0, AT))
            continue;
        if (PQgetisnull(row, 0, BYTES))
            *has_known = is_known(from, row);
        else
            first = add_row(read, row);
    }
    return status ? status : first;
}

/* Sends the question for what came behind a mark. */
static segdag_code send_question(database *base, const mark *from) {
    char end[24], last[24];
    parameter parameters[] = {{base->log, 0, false}, number_of(end, (int64_t)from->end), number_of(last, (int64_t)from->last)};
    return database_send(base, "rows", parameters, 3);
}

/* Takes the answer. */
static segdag_code take_answer(database *base, const mark *from, rows *read) {
    bool has_log = false, has_known = from->chain_size == 0;
    segdag_code status = database_one_by_one(base);
    if (status == SEGDAG_OK)
        status = take_rows(base, from, read, &has_log, &has_known);
    if (status)
        return status;
    if (!has_log) {
        database_tell("the database has no log %s", base->log);
        return SEGDAG_REPLACED;
    }
    if (!has_known) {
        database_tell("the row at byte %" PRIu64 " has changed since it was read: the database has another history now, as after a restore; open the log again", from->last);
        return SEGDAG_REPLACED;
    }
    void *bytes = read->bytes;
    bool has_room = store_grow(&bytes, &read->room, read->size + 1, 1);
    read->bytes = bytes;
    if (!has_room)
        return SEGDAG_MEMORY;
    read->bytes[read->size] = 0;
    return SEGDAG_OK;
}

segdag_code rows_read(database *base, const mark *from, rows *read) {
    *read = (rows){.end = *from};
    segdag_code status = send_question(base, from);
    return status ? status : take_answer(base, from, read);
}

/* ---- the lock */

static const char begin[] = "begin isolation level read committed read write";

/* What the statement `lock` told. */
static segdag_code check_lock(database *base, const PGresult *row) {
    if (!row) {
        database_tell("the database has no log %s", base->log);
        return SEGDAG_REPLACED;
    }
    if (!number_at(row, 1))
        return SEGDAG_OK;
    database_tell("the log requires a synchronous standby, and the server has none: set synchronous_standby_names");
    return SEGDAG_STALE;
}

segdag_code rows_lock(database *base) {
    parameter name = {base->log, 0, false};
    PGresult *row = NULL;
    segdag_code status = database_do(base, begin);
    if (status == SEGDAG_OK)
        status = database_ask(base, "lock", &name, 1, &row);
    if (status == SEGDAG_OK)
        status = check_lock(base, row);
    PQclear(row);
    return status;
}

segdag_code rows_lock_and_read(database *base, const mark *from, rows *read) {
    parameter name = {base->log, 0, false};
    PGresult *row = NULL;
    *read = (rows){.end = *from};
    segdag_code status = database_pipe(base);
    if (status == SEGDAG_OK)
        status = database_pipe_text(base, begin);
    if (status == SEGDAG_OK)
        status = database_send(base, "lock", &name, 1);
    if (status == SEGDAG_OK)
        status = send_question(base, from);
    if (status == SEGDAG_OK)
        status = database_pipe_send(base);
    if (status == SEGDAG_OK)
        status = database_first(base, &row);
    if (status == SEGDAG_OK)
        status = database_first(base, &row);
    if (status == SEGDAG_OK)
        status = check_lock(base, row);
    PQclear(row);
    if (status == SEGDAG_OK)
        status = take_answer(base, from, read);
    database_pipe_end(base);
    return status;
}

/* Waits until the server has answered, or is lost, up to this time: whether it has. */
static bool is_answered(database *base, int64_t end) {
    while (PQisBusy(base->link)) {
        if (!database_hears(base, end - clock_now()))
            return false;
        if (!PQconsumeInput(base->link))
            break;
    }
    return true;
}

/* Waits for the answer for as long as there is patience; then the server is told to stop, and has to do so in as much time again. Whether
   it answered of its own accord. */
static bool wait_answered(database *base) {
    char why[256];
    if (is_answered(base, clock_now() + base->patience))
        return true;
    PGcancel *cancel = PQgetCancel(base->link);
    if (cancel)
        PQcancel(cancel, why, sizeof why);
    PQfreeCancel(cancel);
    if (!is_answered(base, clock_now() + base->patience + 1000))
        database_leave(base);
    return false;
}

segdag_code rows_make_sure(database *base, const char *text) {
    base->was_warned = false;
    if (!PQsendQuery(base->link, text))
        return database_status(base, NULL);
    bool is_sure = wait_answered(base);
    segdag_code status = SEGDAG_OK;
    for (PGresult *result; base->link && (result = PQgetResult(base->link)); PQclear(result))
        if (PQresultStatus(result) != PGRES_TUPLES_OK && PQresultStatus(result) != PGRES_COMMAND_OK)
            status = database_status(base, result);
    if (database_is_lost(status))
        return status;
    if (status == SEGDAG_OK && is_sure && !base->was_warned)
        return SEGDAG_OK;
    database_tell("the standby didn't confirm in time: it may be down, or this server may no longer be the primary");
    return SEGDAG_STALE;
}

/* A message that is logged and means nothing: its COMMIT waits for the standby as each does, and so for all that was logged before. */
segdag_code rows_confirm(database *base) {
    return rows_make_sure(base, "select pg_logical_emit_message(true, 'segdag', '')");
}

/* ---- what is stored */

/* Sends a row that stands behind the mark, or the question whether it does. */
static segdag_code send_row(database *base, const char *statement, const mark *end, const uint8_t *bytes, size_t size) {
    char id[24], generation[24], at[24];
    parameter parameters[] = {number_of(id, end->id), number_of(generation, end->generation), number_of(at, (int64_t)end->end),
        {bytes, size, true}, {end->chain, end->chain_size, true}};
    return database_send(base, statement, parameters, 5);
}

/* Takes the answer, the row's chain, and moves the mark behind it; *is_there says whether there was one. */
static segdag_code take_chain(database *base, mark *end, size_t size, bool *is_there) {
    PGresult *row = NULL;
    segdag_code status = database_first(base, &row);
    *is_there = status == SEGDAG_OK && row && PQgetlength(row, 0, 0) == CHAIN;
    if (*is_there) {
        end->last = end->end;
        end->end += size;
        memcpy(end->chain, PQgetvalue(row, 0, 0), CHAIN);
        end->chain_size = CHAIN;
    }
    PQclear(row);
    return status;
}

segdag_code rows_store(database *base, mark *end, const uint8_t *bytes, size_t size) {
    segdag_code status = SEGDAG_OK;
    for (size_t from = 0, count = 0; status == SEGDAG_OK && from < size; from += count) {
        bool is_there = false;
        count = size - from < PIECE ? size - from : PIECE;
        status = watcher_ask(&base->asked, SEGDAG_STAGE_STORE, from, size);
        if (status == SEGDAG_OK)
            status = send_row(base, "store", end, bytes + from, count);
        if (status == SEGDAG_OK)
            status = take_chain(base, end, count, &is_there);
    }
    return status;
}

/* Takes the answer to COMMIT: whether the server said that it did, without a word more. */
static bool take_commit(database *base) {
    PGresult *result = PQgetResult(base->link);
    bool is_done = PQresultStatus(result) == PGRES_COMMAND_OK && !strcmp(PQcmdStatus(result), "COMMIT");
    if (!is_done)
        database_status(base, result);
    PQclear(result);
#ifndef SEGDAG_PLANT_WARNING_IGNORED
    is_done = is_done && !base->was_warned;
#endif
    return is_done;
}

/* Takes the answers to the last row and to COMMIT. Where the row was refused no COMMIT was executed; where it isn't answered nothing is known. */
static segdag_code take_end(database *base, mark *end, size_t size, bool *is_known) {
    bool is_there = false;
    segdag_code status = take_chain(base, end, size, &is_there);
    if (is_there) {
        *is_known = take_commit(base);
        status = *is_known ? SEGDAG_OK : SEGDAG_GONE;
    } else {
        *is_known = !database_is_lost(status);
    }
    return status;
}

segdag_code rows_commit(database *base, mark *end, const uint8_t *bytes, size_t size, mark *last, bool *is_known) {
    size_t before = (size - 1) / PIECE * PIECE;
    segdag_code status = rows_store(base, end, bytes, before);
    *last = *end;
    *is_known = true;
    base->was_warned = false;
    if (status == SEGDAG_OK)
        status = database_pipe(base);
    if (status == SEGDAG_OK)
        status = send_row(base, "store", end, bytes + before, size - before);
    if (status == SEGDAG_OK)
        status = database_pipe_text(base, "commit");
    if (status)
        return status;
    *is_known = false;
    status = database_pipe_send(base);
#ifdef SEGDAG_PLANT_EARLY_OK
    base->has_sent = *is_known = true;
    end->end += size - before;
    return status;
#endif
    if (status == SEGDAG_OK)
        status = take_end(base, end, size - before, is_known);
    database_pipe_end(base);
    return status;
}

segdag_code rows_look(database *base, mark *last, const uint8_t *bytes, size_t size, bool *is_there) {
    size_t before = (size - 1) / PIECE * PIECE;
    segdag_code status = rows_lock(base);
    if (status == SEGDAG_OK)
        status = send_row(base, "look", last, bytes + before, size - before);
    if (status == SEGDAG_OK)
        status = take_chain(base, last, size - before, is_there);
    return status ? status : rows_make_sure(base, "commit");
}
