/* Logs made in the database, taken in from files and written into files. No proof covers it. */
#define _GNU_SOURCE
#include "rows.h"
#include <errno.h>
#include <fcntl.h>
#include <stdio.h>
#include <stdlib.h>
#include <string.h>
#include <sys/file.h>
#include <sys/stat.h>
#include <unistd.h>

/* Names that are kept of mirrors, of which there are none. */
#define CACHE 1

/* What is written or read between two questions whether to go on. */
#define AT_ONCE ((size_t)1 << 20)

static _Thread_local watcher watching;

segdag_code segdag_postgres_progress(segdag_progress_call call, void *context) {
    watching = (watcher){call, context};
    return SEGDAG_OK;
}

/* Connects to the database for a call of its own. */
static segdag_code reach(database *base, const char *conninfo, const char *log, bool follows) {
    segdag_code status = database_make(base, conninfo, log, follows);
    base->asked = watching;
    if (status == SEGDAG_OK)
        status = database_reach(base, false);
    return status == SEGDAG_GONE ? SEGDAG_NOT_OPENED : status;
}

/* Ends a transaction; where that isn't answered it isn't known what became of it. */
static segdag_code finish(database *base, segdag_code status) {
    if (status) {
        database_leave(base);
        return status;
    }
    base->was_warned = false;
    return database_do(base, "commit") || base->was_warned ? SEGDAG_UNSURE : SEGDAG_OK;
}

/* ---- a new log */

segdag_code segdag_postgres_create(const char *conninfo, const char *log) {
    if (!conninfo || !log || !*log)
        return error_refuse(SEGDAG_ARGUMENT);
    error_begin();
    database base;
    parameter name = {log, 0, false};
    PGresult *row = NULL;
    segdag_code status = reach(&base, conninfo, log, false);
    if (status == SEGDAG_OK)
        status = database_ask(&base, "create", &name, 1, &row);
    if (status == SEGDAG_OK && !row) {
        database_tell("the database already has a log %s", log);
        status = SEGDAG_NOT_EMPTY;
    }
    PQclear(row);
    database_free(&base);
    return error_end(status, NULL);
}

/* ---- into a file */

/* Writes at a place of the file. */
static segdag_code write_at(int fd, const uint8_t *bytes, size_t size, size_t at) {
    for (size_t done = 0; done < size;) {
        ssize_t count = pwrite(fd, bytes + done, size - done, (off_t)(at + done));
        if (count < 0 && errno == EINTR)
            continue;
        if (count <= 0)
            return SEGDAG_DISK;
        done += (size_t)count;
    }
    return SEGDAG_OK;
}

/* Writes it all, and makes sure of it. The first byte, which is 1 where the log has a change, is 0 until the others are there: whoever ends
   this amid it leaves an empty log, and no part of one that looks whole. */
static segdag_code write_whole(int fd, const uint8_t *bytes, size_t size) {
    segdag_code status = write_at(fd, (const uint8_t[1]){0}, 1, 0);
    for (size_t at = 1; status == SEGDAG_OK && at < size; at += AT_ONCE) {
        if (watcher_ask(&watching, SEGDAG_STAGE_STORE, at, size))
            return SEGDAG_CANCELLED;
        status = write_at(fd, bytes + at, size - at < AT_ONCE ? size - at : AT_ONCE, at);
    }
    if (status == SEGDAG_OK)
        status = fsync(fd) ? SEGDAG_DISK : write_at(fd, bytes, 1, 0);
    return status == SEGDAG_OK && fsync(fd) ? SEGDAG_DISK : status;
}

static segdag_code write_new(const char *path, const uint8_t *bytes, size_t size) {
    int fd = file_open(path, O_WRONLY | O_CREAT | O_EXCL);
    if (fd < 0) {
        database_tell("%s: %s", path, strerror(errno));
        return SEGDAG_NOT_OPENED;
    }
    file_signal held;
    file_hold_signal(&held);
    segdag_code status = write_whole(fd, bytes, size);
    int why = errno;
    file_drop_signal(&held);
    if (close(fd) && status == SEGDAG_OK) {
        why = errno;
        status = SEGDAG_DISK;
    }
    if (status == SEGDAG_DISK)
        database_tell("%s: %s", path, strerror(why));
    if (status)
        unlink(path);
    return status;
}

/* The log's last chain as hex digits, none where it has no row. */
static void spell_chain(const mark *end, char chain[65]) {
    for (size_t i = 0; i < end->chain_size; i++)
        snprintf(chain + 2 * i, 3, "%02x", end->chain[i]);
    chain[2 * end->chain_size] = 0;
}

segdag_code segdag_postgres_export(const char *conninfo, const char *log, const char *path, char chain[65]) {
    if (!conninfo || !log || !*log || !path)
        return error_refuse(SEGDAG_ARGUMENT);
    error_begin();
    database base;
    mark start = {0};
    rows read = {0};
    segdag_code status = reach(&base, conninfo, log, true);
    if (status == SEGDAG_OK)
        status = rows_read(&base, &start, &read);
    if (status == SEGDAG_OK && read.size && read.may_be_new)
        status = rows_confirm(&base);
    if (status == SEGDAG_OK)
        status = write_new(path, read.bytes, read.size + 1);
    if (status == SEGDAG_OK && chain)
        spell_chain(&read.end, chain);
    rows_free(&read);
    database_free(&base);
    return error_end(status == SEGDAG_REPLACED ? SEGDAG_NOT_OPENED : status, NULL);
}

/* ---- out of a file */

/* The bytes of the file that is open with its lock. */
static segdag_code read_file(int fd, uint8_t **bytes, size_t *size) {
    struct stat own;
    if (fstat(fd, &own) || !S_ISREG(own.st_mode) || (uint64_t)own.st_size > MOST_BYTES)
        return SEGDAG_NO_LOG;
    *size = (size_t)own.st_size;
    *bytes = malloc(*size + 1);
    if (!*bytes)
        return SEGDAG_MEMORY;
    size_t wanted = *size;
    segdag_code status = file_read(fd, *bytes, size, 0, &watching);
    if (status == SEGDAG_OK && *size < wanted)
        status = SEGDAG_NO_LOG;
    (*bytes)[*size] = 0;
    return status ? status : watcher_ask(&watching, SEGDAG_STAGE_LOAD, wanted, wanted);
}

/* Up to where the bytes are a log, by the core, which refuses what is none. */
static segdag_code log_size(const uint8_t *bytes, size_t size, uint64_t *end) {
    segdag_core core = {0};
    segdag_code status = segdag_core_code(segdag_core_load(&core, bytes, size ? size : 1, CACHE));
    if (status == SEGDAG_OK)
        status = segdag_core_code(segdag_core_end(&core, end));
    segdag_core_close(&core);
    return status;
}

static segdag_code read_log(const char *path, uint8_t **bytes, uint64_t *end) {
    size_t size = 0;
    int fd = file_open(path, O_RDONLY);
    if (fd < 0) {
        database_tell("%s: %s", path, strerror(errno));
        return SEGDAG_NOT_OPENED;
    }
    segdag_code status = flock(fd, LOCK_SH | LOCK_NB) ? SEGDAG_LOCKED : read_file(fd, bytes, &size);
    if (status == SEGDAG_OK)
        status = log_size(*bytes, size, end);
    if (status == SEGDAG_LOCKED)
        database_tell("%s: another process has the log open", path);
    else if (status == SEGDAG_NO_LOG)
        database_tell("%s isn't a log: it is damaged, larger than 2^30 bytes, or another kind of file", path);
    close(fd);
    return status;
}

/* Whether the log in the database ends as is wanted; behind its lock. */
static segdag_code check_end(const mark *end, const char *chain) {
    char own[65];
    spell_chain(end, own);
    if (!chain && end->end > 0) {
        database_tell("the log isn't empty: to replace it, give the chain of its last row, which `export` prints");
        return SEGDAG_NOT_EMPTY;
    }
    if (chain && strcmp(own, chain)) {
        database_tell("something was stored since the export: the chain of the log's last row is %s", *own ? own : "none");
        return SEGDAG_RACED;
    }
    return SEGDAG_OK;
}

/* Takes the rows away, and gives the log the next generation. */
static segdag_code empty_log(database *base, mark *end) {
    char text[256];
    snprintf(text, sizeof text, "delete from segdag.change where log = %lld", (long long)end->id);
    segdag_code status = database_do(base, text);
    snprintf(text, sizeof text, "update segdag.log set generation = generation + 1 where id = %lld", (long long)end->id);
    *end = (mark){.id = end->id, .generation = end->generation + 1};
    return status ? status : database_do(base, text);
}

/* Puts the bytes in place of the log's, by one transaction. */
static segdag_code put_log(database *base, const uint8_t *bytes, uint64_t size, const char *chain) {
    mark start = {0};
    rows there = {0};
    segdag_code status = rows_lock_and_read(base, &start, &there);
    rows_free(&there);
    if (status == SEGDAG_OK)
        status = check_end(&there.end, chain);
    if (status == SEGDAG_OK && chain)
        status = empty_log(base, &there.end);
    if (status == SEGDAG_OK)
        status = rows_store(base, &there.end, bytes, (size_t)size);
    return finish(base, status);
}

segdag_code segdag_postgres_import(const char *conninfo, const char *log, const char *path, const char *chain) {
    if (!conninfo || !log || !*log || !path)
        return error_refuse(SEGDAG_ARGUMENT);
    error_begin();
    database base = {0};
    uint8_t *bytes = NULL;
    uint64_t end = 0;
    segdag_code status = read_log(path, &bytes, &end);
    if (status == SEGDAG_OK)
        status = reach(&base, conninfo, log, false);
    if (status == SEGDAG_OK)
        status = put_log(&base, bytes, end, chain);
    free(bytes);
    database_free(&base);
    return error_end(status == SEGDAG_REPLACED ? SEGDAG_NOT_OPENED : status, NULL);
}
