/* Expressions: how many members they have, and which, all at once or in pieces. */
#include "store.h"
#include <stdio.h>
#include <stdlib.h>
#include <string.h>

/* The core answers so many members at most. */
#define PAGE 1048576

void segdag_ids_free(segdag_ids *ids) {
    if (!ids)
        return;
    free(ids->ids);
    *ids = (segdag_ids){NULL, 0, 0};
}

/* Puts ids of so many bytes, which the core keeps, behind those that are there. */
static segdag_code put_found(segdag_store *store, size_t bytes, segdag_ids *found) {
    if (bytes == 0)
        return SEGDAG_OK;
    void *ids = found->ids;
    bool has_room = store_grow(&ids, &found->room, found->count + bytes / sizeof *found->ids, sizeof *found->ids);
    found->ids = ids;
    if (!has_room)
        return SEGDAG_MEMORY;
    segdag_code code = segdag_core_code(segdag_core_names(&store->core, 0, found->ids[found->count].id, bytes, &bytes));
    found->count += bytes / sizeof *found->ids;
    return code;
}

segdag_code store_take_found(segdag_store *store, size_t bytes, segdag_ids *found) {
    found->count = 0;
    return put_found(store, bytes, found);
}

/* Hands the code on. Of a refusal, what the line says that asks the same is kept: its own text. A question changes nothing. */
static segdag_code keep_refusal(segdag_store *store, segdag_code code, unsigned session, const char *word, const char *text, size_t size) {
    char line[SEGDAG_LINE_BYTES];
    int front = snprintf(line, sizeof line, "%u %s ", session, word);
    if (code < SEGDAG_SYNTAX || code >= SEGDAG_UNSURE || size > sizeof line - (size_t)front || memchr(text, '\n', size))
        return code;
    memcpy(line + front, text, size);
    segdag_text reply = SEGDAG_TEXT_INIT;
    if (!store_line(store, line, (size_t)front + size, &reply) && error_of_reply(reply.bytes) == code)
        error_reply(reply.bytes);
    segdag_text_free(&reply);
    return store->core.is_open ? code : SEGDAG_REPLY;
}

static segdag_code count(segdag_store *store, unsigned session, const char *text, size_t size, uint64_t *members) {
    segdag_code code;
    STORE_ASKED(store, code, segdag_core_count(&store->core, (uint8_t)session, (const uint8_t *)text, size, members));
    return keep_refusal(store, code, session, "count", text, size);
}

segdag_code segdag_query_count(segdag_store *store, unsigned session, const char *expression, size_t size, uint64_t *members) {
    if (store && (session >= SEGDAG_SESSIONS || !expression || !members || size > SEGDAG_LINE_BYTES))
        return error_refuse(SEGDAG_ARGUMENT);
    segdag_code code = store_enter(store);
    return code ? code : store_leave(store, count(store, session, expression, size, members));
}

/* Has the core find an expression's members, and puts them behind those that are there. */
static segdag_code find(segdag_store *store, unsigned session, const char *text, size_t size, segdag_ids *found) {
    size_t bytes = 0;
    segdag_code code;
    STORE_ASKED(store, code, segdag_core_query(&store->core, (uint8_t)session, (const uint8_t *)text, size, &bytes));
    return code ? code : put_found(store, bytes, found);
}

/* Finds more members than the core answers at once, by asking for those behind the greatest so many, which the language can say. */
static segdag_code find_pages(segdag_store *store, unsigned session, const char *text, size_t size, segdag_ids *found) {
    char *page = malloc(2 * size + 128);
    if (!page)
        return SEGDAG_MEMORY;
    segdag_code code = SEGDAG_OK;
    for (size_t before = 0; code == SEGDAG_OK && (before == 0 || found->count - before == PAGE);) {
        before = found->count;
        code = watcher_ask(&store->asked, SEGDAG_STAGE_ANSWER, before, 0);
        if (code)
            break;
        int long_page = before == 0 ? sprintf(page, "top(%.*s,%d)", (int)size, text, PAGE)
                                    : sprintf(page, "top(minus(%.*s,top(%.*s,%zu)),%d)", (int)size, text, (int)size, text, before, PAGE);
        code = find(store, session, page, (size_t)long_page, found);
    }
    free(page);
    return code == SEGDAG_SYNTAX ? SEGDAG_ANSWER : code;
}

static segdag_code find_all(segdag_store *store, unsigned session, const char *text, size_t size, segdag_ids *found) {
    found->count = 0;
    segdag_code code = find(store, session, text, size, found);
    if (code == SEGDAG_ANSWER)
        code = find_pages(store, session, text, size, found);
    if (code)
        found->count = 0;
    return keep_refusal(store, code, session, code == SEGDAG_ANSWER ? "query" : "count", text, size);
}

segdag_code segdag_query_ids(segdag_store *store, unsigned session, const char *expression, size_t size, segdag_ids *members) {
    if (store && (session >= SEGDAG_SESSIONS || !expression || !members || size > SEGDAG_LINE_BYTES))
        return error_refuse(SEGDAG_ARGUMENT);
    segdag_code code = store_enter(store);
    return code ? code : store_leave(store, find_all(store, session, expression, size, members));
}

/* ---- cursors */

struct segdag_cursor {
    segdag_ids members;
    size_t at; /* how many were given */
};

segdag_code segdag_query_open(segdag_store *store, unsigned session, const char *expression, size_t size, segdag_cursor **cursor) {
    if (cursor)
        *cursor = NULL;
    if (store && !cursor)
        return error_refuse(SEGDAG_ARGUMENT);
    segdag_cursor *made = calloc(1, sizeof *made);
    segdag_code code = made ? segdag_query_ids(store, session, expression, size, &made->members) : error_refuse(SEGDAG_MEMORY);
    if (code) {
        segdag_cursor_close(made);
        return code;
    }
    *cursor = made;
    return code;
}

segdag_code segdag_cursor_next(segdag_cursor *cursor, segdag_id *ids, size_t room, size_t *count) {
    if (!cursor || !count || !ids || room == 0)
        return error_refuse(SEGDAG_ARGUMENT);
    size_t left = cursor->members.count - cursor->at;
    *count = room < left ? room : left;
    if (*count)
        memcpy(ids, &cursor->members.ids[cursor->at], *count * sizeof *ids);
    cursor->at += *count;
    return SEGDAG_OK;
}

uint64_t segdag_cursor_left(const segdag_cursor *cursor) {
    return cursor ? cursor->members.count - cursor->at : 0;
}

void segdag_cursor_close(segdag_cursor *cursor) {
    if (!cursor)
        return;
    segdag_ids_free(&cursor->members);
    free(cursor);
}
