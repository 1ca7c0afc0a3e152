/* What tests/clib.sh runs over the library's core, each of its functions once and more: no file is reached, the log stands in memory. */
#include "clib.h"
#include "segdag_core.h"
#include <inttypes.h>

static const uint8_t first[20] = {1, 1, 1, 1, 1, 1, 1, 1, 1, 1, 1, 1, 1, 1, 1, 1, 1, 1, 1, 1};
static const uint8_t second[20] = {2, 2, 2, 2, 2, 2, 2, 2, 2, 2, 2, 2, 2, 2, 2, 2, 2, 2, 2, 2};
static const uint8_t nothing[1];

/* A log whose master has the one commit `second`. */
static const uint8_t mirrored[98] = {
    1, 0, 0, 0, 0, 0, 0, 0, 88, 2, 1, 0, 0, 0, 0, 0, 0, 0, 0, 0, 0, 0, 0, 0, 0, 0, 1, 0, 0, 0, 0, 0, 0, 0, 0, 0, 0, 0, 1,
    1, 0, 0, 0, 0, 0, 0, 0, 0, 0, 0, 0, 0, 0, 0, 0, 0, 0, 0, 1, 0, 0, 0, 0, 0, 0, 0, 0, 2, 2, 2, 2, 2, 2, 2, 2, 2, 2, 2, 2, 2, 2, 2, 2, 2, 2, 2, 2};

static const uint64_t others = UINT64_C(1) << 56;

/* Answers a line, and tells whether the reply is this one. */
static bool replies(segdag_core *core, const char *line, const char *wanted) {
    size_t size = 0, copied = 0;
    uint8_t reply[64];
    uint32_t code = segdag_core_line(core, (const uint8_t *)line, strlen(line), &size);
    return !code && !segdag_core_reply(core, 0, reply, sizeof reply, &copied) && copied == size && size == strlen(wanted) && !memcmp(reply, wanted, size);
}

/* Whether the names that are kept are this one. */
static bool has_found(segdag_core *core, size_t size, const uint8_t *wanted) {
    uint8_t name[20];
    size_t copied = 0;
    return size == 20 && !segdag_core_names(core, 0, name, sizeof name, &copied) && copied == 20 && !memcmp(name, wanted, 20);
}

static void closed_ones(void) {
    segdag_core core = {0};
    uint64_t number = 0;
    uint32_t count = 0;
    size_t size = 0;
    WANTS(segdag_core_close(&core) == 17);
    WANTS(segdag_core_line(&core, (const uint8_t *)"0 status", 8, &size) == 17);
    WANTS(segdag_core_add(&core, 0, first, nothing, 0, &number) == 17);
    WANTS(segdag_core_only(&core, 0, second, first, &number) == 17);
    WANTS(segdag_core_at_place(&core, 0, 1, &size) == 17);
    WANTS(segdag_core_add_mirror(&core, 7, 0) == 17);
    WANTS(segdag_core_renew_mirror(&core, 7, true, mirrored, sizeof mirrored) == 17);
    WANTS(segdag_core_more(&core, mirrored, sizeof mirrored, &count) == 17);
    WANTS(segdag_core_end(&core, &number) == 17);
    WANTS(segdag_core_load(&core, nothing, 0, 0) == 19);
    WANTS(segdag_core_load(&core, (const uint8_t *)"\1\377\377\377", 4, 1) == 4);
    WANTS(segdag_core_load(&core, nothing, 0, 1) == 0);
    WANTS(segdag_core_load(&core, nothing, 0, 1) == 18);
    WANTS(segdag_core_close(&core) == 0);
    WANTS(segdag_core_close(&core) == 17);
}

static void typed_calls(void) {
    segdag_core core = {0};
    uint64_t number = 7;
    size_t size = 0;
    WANTS(segdag_core_load(&core, nothing, 0, 1) == 0);
    WANTS(segdag_core_add(&core, 0, first, nothing, 0, &number) == 0 && number == others);
    WANTS(segdag_core_add(&core, 0, second, first, 20, &number) == 0);
    WANTS(segdag_core_add(&core, 0, second, (const uint8_t *)"short", 5, &number) == 19);
    WANTS(segdag_core_add(&core, 16, second, first, 20, &number) == 19);
    WANTS(segdag_core_add(&core, 0, first, second, 20, &number) == 35);
    WANTS(segdag_core_id(&core, 0, second, &number) == 0 && number == others + 1);
    WANTS(segdag_core_id(&core, 1, second, &number) == 33);
    WANTS(segdag_core_count(&core, 0, (const uint8_t *)"all", 3, &number) == 0 && number == 2);
    WANTS(segdag_core_count(&core, 0, (const uint8_t *)"all of it", 9, &number) == 32);
    WANTS(segdag_core_query(&core, 0, (const uint8_t *)"heads(all)", 10, &size) == 0 && has_found(&core, size, second));
    WANTS(segdag_core_is_ancestor(&core, 0, first, second, &number) == 0 && number == 1);
    WANTS(segdag_core_is_ancestor(&core, 0, second, first, &number) == 0 && number == 0);
    WANTS(segdag_core_is_ancestor(&core, 1, first, second, &number) == 33);
    WANTS(segdag_core_only(&core, 0, second, first, &number) == 0 && number == 1);
    WANTS(segdag_core_only(&core, 16, second, first, &number) == 19);
    WANTS(segdag_core_merge_bases(&core, 0, second, first, &size) == 0 && has_found(&core, size, first));
    WANTS(segdag_core_at_place(&core, 0, 1, &size) == 0 && has_found(&core, size, second));
    WANTS(segdag_core_at_place(&core, 0, 2, &size) == 0 && has_found(&core, size, first));
    WANTS(segdag_core_at_place(&core, 0, 3, &size) == 0 && size == 0);
    WANTS(segdag_core_at_place(&core, 0, UINT64_MAX, &size) == 0 && size == 0);
    WANTS(segdag_core_at_place(&core, 0, 0, &size) == 19);
    WANTS(segdag_core_at_place(&core, 16, 1, &size) == 19);
    WANTS(segdag_core_close(&core) == 0);
}

static void sessions(void) {
    segdag_core core = {0};
    uint64_t id = 7, master = 7, some = 7, pending = 7;
    WANTS(segdag_core_load(&core, mirrored, sizeof mirrored, 1) == 0);
    WANTS(segdag_core_add(&core, 3, first, second, 20, &id) == 0);
    WANTS(segdag_core_sizes(&core, 3, &master, &some, &pending) == 0 && master == 1 && some == 0 && pending == 1);
    WANTS(segdag_core_sizes(&core, 16, &master, &some, &pending) == 19);
    pending = 7;
    WANTS(segdag_core_reload(&core, 3, &pending) == 0 && pending == 1);
    pending = 7;
    WANTS(segdag_core_discard(&core, 3, &pending) == 0 && pending == 1);
    WANTS(segdag_core_discard(&core, 3, &pending) == 0 && pending == 0);
    WANTS(segdag_core_close(&core) == 0);
}

/* A log in memory, as whoever keeps logs elsewhere has one. */
typedef struct memory_log {
    uint8_t bytes[256];
    size_t size;
} memory_log;

/* Performs each write and sync that the core notes, in order, and tells their kinds. */
static size_t perform(segdag_core *core, memory_log *log, uint32_t kinds[8]) {
    for (size_t count = 0; count < 8; count++) {
        uint64_t at = 0;
        size_t size = 0, copied = 0;
        if (segdag_core_next(core, &kinds[count], &at, &size) || kinds[count] == SEGDAG_CORE_NOTHING)
            return count;
        if (kinds[count] == SEGDAG_CORE_WRITE && at + size <= sizeof log->bytes) {
            WANTS(segdag_core_piece(core, 0, log->bytes + at, size, &copied) == 0 && copied == size);
            log->size = at + size > log->size ? at + size : log->size;
        }
        WANTS(segdag_core_performed(core) == 0);
    }
    return 8;
}

static void notes(void) {
    segdag_core core = {0};
    memory_log log = {{0}, 1};
    uint64_t number = 0;
    uint32_t kinds[8] = {9};
    WANTS(segdag_core_load(&core, log.bytes, log.size, 1) == 0);
    WANTS(segdag_core_add(&core, 0, second, nothing, 0, &number) == 0);
    WANTS(replies(&core, "0 flush 0202020202020202020202020202020202020202", "ok flushed 1 0\n"));
    WANTS(perform(&core, &log, kinds) == 7);
    WANTS(!memcmp(kinds, ((uint32_t[7]){2, 1, 2, 1, 2, 1, 2}), 7 * sizeof *kinds));
    WANTS(segdag_core_close(&core) == 0);
    WANTS(segdag_core_load(&core, log.bytes, log.size, 1) == 0);
    WANTS(segdag_core_id(&core, 0, second, &number) == 0 && number == 0);
    WANTS(segdag_core_close(&core) == 0);
}

/* What changes without a text note, performed over a log in memory: it is there when the log is loaded again. */
static void kept_changes(void) {
    segdag_core core = {0};
    memory_log log = {{0}, 1};
    uint64_t id = 0, master = 7, some = 7;
    uint32_t kinds[8] = {9};
    WANTS(segdag_core_load(&core, log.bytes, log.size, 1) == 0);
    WANTS(segdag_core_add(&core, 0, second, nothing, 0, &id) == 0 && segdag_core_add(&core, 0, first, second, 20, &id) == 0);
    WANTS(segdag_core_flush(&core, 0, second, 20, &master, &some) == 0 && master == 1 && some == 1);
    WANTS(perform(&core, &log, kinds) == 7);
    WANTS(segdag_core_strip(&core, 0, first, 20, &master, &some) == 0 && perform(&core, &log, kinds) == 4 && segdag_core_close(&core) == 0);
    WANTS(segdag_core_load(&core, log.bytes, log.size, 1) == 0 && segdag_core_id(&core, 0, first, &id) == 33);
    WANTS(segdag_core_id(&core, 0, second, &id) == 0 && id == 0 && segdag_core_close(&core) == 0);
}

static void mirrors(void) {
    segdag_core core = {0};
    uint64_t number = 7;
    size_t size = 0;
    WANTS(segdag_core_load(&core, nothing, 1, 1) == 0);
    WANTS(segdag_core_add_mirror(&core, 7, 2) == 19);
    WANTS(segdag_core_add_mirror(&core, 7, SEGDAG_CORE_LOG) == 0);
    WANTS(segdag_core_add_mirror(&core, 8, SEGDAG_CORE_BUNDLE) == 0);
    WANTS(segdag_core_renew_mirror(&core, 9, true, mirrored, sizeof mirrored) == 19);
    WANTS(segdag_core_line(&core, (const uint8_t *)"0 clone", 7, &size) == 0 && size == 13);
    WANTS(segdag_core_renew_mirror(&core, 7, true, mirrored, sizeof mirrored) == 0);
    WANTS(segdag_core_renew_mirror(&core, 8, false, nothing, 0) == 0);
    WANTS(replies(&core, "0 clone", "ok cloned 1\n"));
    WANTS(segdag_core_id(&core, 0, second, &number) == 0 && number == 0);
    WANTS(segdag_core_close(&core) == 0);
}

static void follows(void) {
    segdag_core core = {0};
    uint64_t at = 7, number = 7;
    uint32_t count = 7;
    WANTS(segdag_core_load(&core, nothing, 0, 1) == 0);
    WANTS(segdag_core_end(&core, &at) == 0 && at == 0);
    WANTS(segdag_core_more(&core, mirrored, 97, &count) == 4);
    WANTS(segdag_core_more(&core, mirrored, 98, &count) == 0 && count == 1);
    WANTS(segdag_core_end(&core, &at) == 0 && at == 97);
    WANTS(segdag_core_more(&core, mirrored + 97, 1, &count) == 0 && count == 0);
    WANTS(segdag_core_more(&core, mirrored, 98, &count) == 4);
    WANTS(segdag_core_id(&core, 0, second, &number) == 33);
    WANTS(replies(&core, "0 reload", "ok reloaded 0\n"));
    WANTS(segdag_core_id(&core, 0, second, &number) == 0 && number == 0);
    WANTS(segdag_core_close(&core) == 0);
}

/* Changes without a text, and what they note. */
static void changes(void) {
    segdag_core core = {0}, clone = {0};
    uint64_t number = 7, master = 7, others = 7;
    uint32_t kind = 0;
    size_t size = 0;
    WANTS(segdag_core_flush(&core, 0, nothing, 0, &master, &others) == 17 && segdag_core_pull(&core, 0, &master, &others) == 17 && master == 7);
    WANTS(segdag_core_load(&core, nothing, 0, 1) == 0);
    while (!segdag_core_next(&core, &kind, &number, &size) && kind)
        segdag_core_performed(&core);
    WANTS(segdag_core_add(&core, 0, first, nothing, 0, &number) == 0 && segdag_core_add(&core, 0, second, first, 20, &number) == 0);
    WANTS(segdag_core_flush(&core, 16, nothing, 0, &master, &others) == 19 && segdag_core_flush(&core, 0, (const uint8_t *)"short", 5, &master, &others) == 19);
    WANTS(segdag_core_flush(&core, 0, mirrored, 20, &master, &others) == 33 && segdag_core_next(&core, &kind, &number, &size) == 0 && kind == 0);
    WANTS(segdag_core_flush(&core, 0, first, 20, &master, &others) == 0 && master == 1 && others == 1);
    WANTS(segdag_core_next(&core, &kind, &number, &size) == 0 && kind != 0);
    WANTS(segdag_core_strip(&core, 0, nothing, 0, &master, &others) == 19 && segdag_core_strip(&core, 0, first, 20, &master, &others) == 38);
    WANTS(segdag_core_strip(&core, 0, second, 20, &master, &others) == 0 && master == 1 && others == 0);
    WANTS(segdag_core_clone(&core, 0, &master, &others) == 42 && segdag_core_pull(&core, 0, &master, &others) == 44);
    WANTS(segdag_core_load(&clone, nothing, 0, 1) == 0 && segdag_core_add_mirror(&clone, 3, SEGDAG_CORE_LOG) == 0);
    WANTS(segdag_core_clone(&clone, 0, &master, &others) == 45 && segdag_core_renew_mirror(&clone, 3, true, mirrored, sizeof mirrored) == 0);
    WANTS(segdag_core_clone(&clone, 0, &master, &others) == 0 && master == 1 && others == 0 && segdag_core_pull(&clone, 0, &master, &others) == 0 && master == 1);
    WANTS(segdag_core_close(&core) == 0 && segdag_core_close(&clone) == 0);
}

int main(void) {
    closed_ones();
    typed_calls();
    changes();
    sessions();
    notes();
    kept_changes();
    mirrors();
    follows();
    printf("core: %d wishes failed\n", failures);
    return failures != 0;
}
