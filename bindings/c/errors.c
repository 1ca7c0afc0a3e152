/* Codes, their names, and why the last call of a thread failed. */
#define _GNU_SOURCE
#include "store.h"
#include <errno.h>
#include <stdarg.h>
#include <stdio.h>
#include <string.h>

static const struct {
    const char *name, *text;
} codes[] = {
    [SEGDAG_OK] = {"ok", "no error"},
    [SEGDAG_ARGUMENT] = {"argument", "invalid argument: NULL, a session above 15, a list or text that is too long, or options that exclude each other"},
    [SEGDAG_CLOSED] = {"closed", "the store is NULL, or was closed by an earlier failure: open it again"},
    [SEGDAG_FORKED] = {"forked", "the store was opened before this process was forked: open it again here"},
    [SEGDAG_MEMORY] = {"memory", "out of memory; nothing was done"},
    [SEGDAG_NOT_OPENED] = {"not-opened", "the file can't be opened or locked, doesn't exist, or isn't a regular file"},
    [SEGDAG_LOCKED] = {"locked", "the log is open for writing elsewhere, in this process or another one: follow it, or wait for it"},
    [SEGDAG_FOREIGN] = {"foreign", "the file isn't a log: it begins like a bundle or another kind of file; nothing was changed"},
    [SEGDAG_NO_LOG] = {"no-log", "the file is damaged, longer than was allowed, or not a log"},
    [SEGDAG_REPLACED] = {"replaced", "the log's file was removed or replaced: close the store and open it again"},
    [SEGDAG_READ_ONLY] = {"read-only", "the store was opened read-only; nothing was changed"},
    [SEGDAG_DISK] = {"disk", "the log's disk failed, and the store is closed: the log is unchanged or has the change; open it again to see"},
    [SEGDAG_REPLY] = {"reply", "out of memory for the answer, and the store is closed: open it again to see what was done"},
    [SEGDAG_SYNTAX] = {"syntax", "the text isn't a valid expression or line"},
    [SEGDAG_UNKNOWN] = {"unknown", "the session sees no such commit"},
    [SEGDAG_TWICE] = {"twice", "a parent is given twice"},
    [SEGDAG_DIFFERS] = {"differs", "the commit exists with other parents"},
    [SEGDAG_CONFLICT] = {"conflict", "a pending commit, or one to be pulled, is stored with other parents"},
    [SEGDAG_LOST] = {"lost", "the parent of a pending commit was stripped"},
    [SEGDAG_MASTER] = {"master", "a commit in master can't be stripped"},
    [SEGDAG_EMPTY] = {"empty", "the strip would leave no commit"},
    [SEGDAG_FULL] = {"full", "a limit was reached"},
    [SEGDAG_ANSWER] = {"answer", "the query has more members than a line's reply can have"},
    [SEGDAG_NOT_EMPTY] = {"not-empty", "a clone needs an empty log, and this one has commits"},
    [SEGDAG_PENDING] = {"pending", "the session has pending commits: flush or discard them first"},
    [SEGDAG_NO_REMOTE] = {"no-remote", "a mirror is needed, and the store has none"},
    [SEGDAG_REMOTE] = {"remote", "all mirrors failed in one question; they may answer if asked again"},
    [SEGDAG_MISMATCH_PATH] = {"mismatch path", "a mirror's path to a commit doesn't exist in this store"},
    [SEGDAG_MISMATCH_NAMES] = {"mismatch names", "a mirror gave another number of ids than it was asked for"},
    [SEGDAG_MISMATCH_CLONE] = {"mismatch clone", "a mirror sent wrong data for a clone"},
    [SEGDAG_MISMATCH_ROW] = {"mismatch row", "a mirror sent an id that can't be that of a new commit"},
    [SEGDAG_LINE] = {"line", "the line is longer than 16384 bytes"},
    [SEGDAG_UNSURE] = {"unsure", "it isn't known whether the change is stored: open the store again to see"},
    [SEGDAG_GONE] = {"gone", "no connection to the database; nothing was stored"},
    [SEGDAG_RACED] = {"raced", "another writer stored something first; nothing was stored"},
    [SEGDAG_STALE] = {"stale", "the server isn't the current primary, or its changes aren't confirmed yet; nothing was stored or read"},
    [SEGDAG_DATABASE] = {"database", "the database refused a statement; nothing was stored"},
    [SEGDAG_CANCELLED] = {"cancelled", "cancelled by the progress call; nothing was done"},
};

const char *segdag_version(void) {
    return SEGDAG_VERSION;
}

const char *segdag_code_name(segdag_code code) {
    return (unsigned)code < SEGDAG_CODES ? codes[code].name : "none";
}

const char *segdag_code_text(segdag_code code) {
    return (unsigned)code < SEGDAG_CODES ? codes[code].text : "unknown code";
}

segdag_code segdag_core_code(uint32_t status) {
    static const unsigned char first[] = {
        [SEGDAG_CORE_OK] = SEGDAG_OK, [SEGDAG_CORE_DISK] = SEGDAG_DISK, [SEGDAG_CORE_NO_LOG] = SEGDAG_NO_LOG, [SEGDAG_CORE_REPLY] = SEGDAG_REPLY,
        [SEGDAG_CORE_MEMORY] = SEGDAG_MEMORY, [SEGDAG_CORE_CLOSED] = SEGDAG_CLOSED, [SEGDAG_CORE_OPEN] = SEGDAG_LOCKED,
        [SEGDAG_CORE_ARGUMENT] = SEGDAG_ARGUMENT,
    };
    if (status < sizeof first)
        return (segdag_code)first[status];
    return status < SEGDAG_CORE_SYNTAX || status > SEGDAG_CORE_LAST ? SEGDAG_ARGUMENT : (segdag_code)(SEGDAG_SYNTAX + (status - SEGDAG_CORE_SYNTAX));
}

segdag_code error_of_reply(const char *reply) {
    if (strncmp(reply, "err ", 4))
        return SEGDAG_OK;
    for (int code = SEGDAG_MEMORY; code < SEGDAG_UNSURE; code++) {
        size_t size = strlen(codes[code].name);
        char behind = strncmp(reply + 4, codes[code].name, size) ? 'x' : reply[4 + size];
        if (behind == ' ' || behind == '\n')
            return (segdag_code)code;
    }
    return SEGDAG_SYNTAX;
}

/* ---- the last failure */

/* What is known of the call that this thread is in, and what its last failure was. */
static _Thread_local segdag_error now, last;

const segdag_error *segdag_last_error(void) {
    if (last.code == SEGDAG_OK && !*last.text)
        strcpy(last.text, "no call has failed");
    return &last;
}

void error_begin(void) {
    now.system = 0;
    now.call = NULL;
    now.has_id = false;
    *now.text = 0;
}

void error_hold(segdag_error *held) {
    *held = now;
}

void error_resume(const segdag_error *held) {
    now = *held;
}

void error_system(const char *call) {
    now.system = errno;
    now.call = call;
}

void error_id(const segdag_id *id) {
    now.has_id = true;
    now.id = *id;
}

void error_text(const char *format, ...) {
    va_list arguments;
    va_start(arguments, format);
    vsnprintf(now.text, sizeof now.text, format, arguments);
    va_end(arguments);
}

static int digit(char c) {
    return c >= '0' && c <= '9' ? c - '0' : c >= 'a' && c <= 'f' ? c - 'a' + 10 : -1;
}

/* Whether 40 digits stand here, and nothing behind them but a space or the end: an id. */
static bool read_id(const char *text, segdag_id *id) {
    for (int i = 0; i < SEGDAG_ID_SIZE; i++) {
        int high = digit(text[2 * i]), low = high < 0 ? -1 : digit(text[2 * i + 1]);
        if (low < 0)
            return false;
        id->id[i] = (unsigned char)(high << 4 | low);
    }
    char behind = text[2 * SEGDAG_ID_SIZE];
    return behind == ' ' || behind == 0;
}

void error_reply(const char *reply) {
    if (strncmp(reply, "err ", 4))
        return;
    error_text("%.*s", (int)strcspn(reply + 4, "\n"), reply + 4);
    for (const char *at = strchr(now.text, ' '); at && !now.has_id; at = strchr(at + 1, ' '))
        now.has_id = read_id(at + 1, &now.id);
}

/* What is said where the refusal has no text of its own. */
static void put_text(segdag_error *error, const char *path) {
    char *at = error->text, *end = error->text + sizeof error->text;
    const char *of = path ? path : "", *colon = path ? ": " : "";
    if (error->has_id) {
        at += snprintf(at, (size_t)(end - at), "%s ", segdag_code_name(error->code));
        for (int i = 0; i < SEGDAG_ID_SIZE; i++)
            at += snprintf(at, (size_t)(end - at), "%02x", error->id.id[i]);
    } else if (error->call) {
        char room[128];
        snprintf(at, (size_t)(end - at), "%.300s%s%s: %s", of, colon, error->call, strerror_r(error->system, room, sizeof room));
    } else
        snprintf(at, (size_t)(end - at), "%.300s%s%s", of, colon, segdag_code_text(error->code));
}

/* Whether what the system said last is why a call ended so. */
static bool is_of_system(segdag_code code) {
    return code == SEGDAG_NOT_OPENED || code == SEGDAG_DISK || code == SEGDAG_REMOTE || (code >= SEGDAG_UNSURE && code < SEGDAG_CANCELLED);
}

segdag_code error_end(segdag_code code, const char *path) {
    if (code == SEGDAG_OK)
        return code;
    now.code = code;
    if (!is_of_system(code)) {
        now.system = 0;
        now.call = NULL;
    }
    if (!*now.text)
        put_text(&now, path);
    last = now;
    return code;
}

segdag_code error_refuse(segdag_code code) {
    error_begin();
    return error_end(code, NULL);
}
