/* Lines of the command language: which of them change what is stored, and what the core replies. No proof covers it. */
#include "store.h"
#include <stdlib.h>
#include <string.h>

/* Replies to changes, and refusals, are shorter than this: there is room for them before a line is executed. */
#define SHORT_REPLY 1024

static const uint8_t nothing = 0;

static bool grow_text(segdag_text *text, size_t size) {
    void *bytes = text->bytes;
    bool has_room = store_grow(&bytes, &text->room, size + 1, 1);
    text->bytes = bytes;
    return has_room;
}

void segdag_text_free(segdag_text *text) {
    if (!text)
        return;
    free(text->bytes);
    *text = (segdag_text){0};
}

/* Whether this stands behind the line's number. */
static bool has_word(const char *line, size_t size, const char *word) {
    size_t at = 0, long_word = strlen(word);
    while (at < size && line[at] >= '0' && line[at] <= '9')
        at++;
    return size - at == long_word && !memcmp(line + at, word, long_word);
}

segdag_code store_settle(segdag_store *store, segdag_code code) {
    if (code == SEGDAG_DISK || code == SEGDAG_REPLY)
        return store_fail(store, code);
    if (code)
        return code;
    if (store->engine)
        code = store->engine->perform(store);
    else if (store->only_reads ? store_drop_noted(store) : store_perform(store))
        code = store->only_reads ? SEGDAG_READ_ONLY : SEGDAG_DISK;
    return code ? store_fail(store, code) : code;
}

/* Answers a line in the core, and performs what it notes. */
static segdag_code answer_line(segdag_store *store, const char *line, size_t size, segdag_text *reply) {
    size_t wanted = 0;
    segdag_code code = segdag_core_code(segdag_core_line(&store->core, size ? (const uint8_t *)line : &nothing, size, &wanted));
    code = store_settle(store, code);
    if (code)
        return code;
    if (!grow_text(reply, wanted))
        return SEGDAG_MEMORY;
    code = segdag_core_code(segdag_core_reply(&store->core, 0, (uint8_t *)reply->bytes, wanted ? wanted : 1, &reply->size));
    reply->bytes[reply->size] = 0;
    return code;
}

/* Whether the reply is that all mirrors failed. */
static bool tells_failed(const segdag_text *reply) {
    static const char failed[] = "err remote ";
    return !strncmp(reply->bytes, failed, strlen(failed));
}

segdag_code store_line(segdag_store *store, const char *line, size_t size, segdag_text *reply) {
    reply->size = 0;
    if (!grow_text(reply, SHORT_REPLY))
        return SEGDAG_MEMORY;
    reply->bytes[0] = 0;
    segdag_code code = store_before_line(store, line, size);
    if (code)
        return code;
    bool is_fresh = has_word(line, size, " clone") || has_word(line, size, " pull");
    code = is_fresh ? store_read_mirrors(store) : SEGDAG_OK;
    if (code == SEGDAG_OK)
        code = answer_line(store, line, size, reply);
    if (code == SEGDAG_OK && !is_fresh && tells_failed(reply) && store_asks_again(store, SEGDAG_REMOTE))
        code = answer_line(store, line, size, reply);
    if (store->place)
        store->engine->after(store);
    return code;
}

segdag_code segdag_store_line(segdag_store *store, const char *line, size_t size, segdag_text *reply) {
    if (store && (!reply || (!line && size) || (size && memchr(line, '\n', size))))
        return error_refuse(SEGDAG_ARGUMENT);
    if (size && line && line[size - 1] == '\r')
        size -= 1;
    segdag_code code = store_enter(store);
    return code ? code : store_leave(store, store_line(store, line, size, reply));
}
