/* The proved part of segdag, for who keeps logs elsewhere than in files. It reaches no file: it is lent the log's bytes for one call, and says which
   writes and syncs are to be performed, in this order, before what it answered counts. Where one can't be performed the core is to be closed.
   A core is all zeros at first, isn't copied, waits for nobody: of one core, make one call after another. Pointers may not be NULL, also where
   a size is 0. It is in libsegdag.a alone: the shared library doesn't lend it.

   Names and ids are README's here: a name is what segdag.h calls an id, 20 bytes, and an id a number. */
#ifndef SEGDAG_CORE_H
#define SEGDAG_CORE_H
#include "segdag.h"
#ifdef __cplusplus
extern "C" {
#endif

/* What a call of the core answers. */
typedef enum segdag_core_status {
    SEGDAG_CORE_OK = 0,
    SEGDAG_CORE_DISK = 3,     /* there was no memory to note a write, now or before */
    SEGDAG_CORE_NO_LOG = 4,   /* the bytes are no log */
    SEGDAG_CORE_REPLY = 6,    /* no memory for the reply of a line that was executed */
    SEGDAG_CORE_MEMORY = 7,   /* no memory; nothing was done */
    SEGDAG_CORE_CLOSED = 17,  /* no log is open */
    SEGDAG_CORE_OPEN = 18,    /* of segdag_core_load alone: a log is open */
    SEGDAG_CORE_ARGUMENT = 19,
    SEGDAG_CORE_SYNTAX = 32,  /* and refusals behind it, in the order of segdag_code */
    SEGDAG_CORE_LAST = 50
} segdag_core_status;

/* The code of segdag.h for what a call of the core answered. SEGDAG_CORE_OPEN is SEGDAG_LOCKED. */
segdag_code segdag_core_code(uint32_t status);

typedef struct segdag_core {
    bool is_open;
    void *handle;
} segdag_core;

typedef enum segdag_core_kind { SEGDAG_CORE_NOTHING = 0, SEGDAG_CORE_WRITE = 1, SEGDAG_CORE_SYNC = 2 } segdag_core_kind;

typedef enum segdag_core_mirror { SEGDAG_CORE_LOG = 0, SEGDAG_CORE_BUNDLE = 1 } segdag_core_mirror;

uint32_t segdag_core_load(segdag_core *core, const uint8_t *bytes, size_t size, uint32_t cache);
uint32_t segdag_core_close(segdag_core *core);
uint32_t segdag_core_next(segdag_core *core, uint32_t *kind, uint64_t *at, size_t *size);
uint32_t segdag_core_piece(segdag_core *core, size_t from, uint8_t *out, size_t room, size_t *copied);
uint32_t segdag_core_performed(segdag_core *core);

/* What another process stores behind an open log. Where it goes on in the file: the place of its closed gate. And the file's bytes from there to
   its end: how many changes were taken is told, also where the next one isn't: SEGDAG_NO_LOG where the bytes aren't whole, aren't lawful
   behind the others, or too many; nothing is taken where an open gate has no whole change behind it. Each session stays where it is until it is
   reloaded. */
uint32_t segdag_core_end(segdag_core *core, uint64_t *at);
uint32_t segdag_core_more(segdag_core *core, const uint8_t *bytes, size_t size, uint32_t *count);

/* A mirror, by a number of yours: each call on it fails until it is renewed. Renewed it has a copy of these bytes, the whole of its file,
   or isn't there; SEGDAG_ARGUMENT where no mirror has this number, as of one that a line dropped. */
uint32_t segdag_core_add_mirror(segdag_core *core, uint32_t number, uint32_t kind);
uint32_t segdag_core_renew_mirror(segdag_core *core, uint32_t number, bool is_there, const uint8_t *bytes, size_t size);
uint32_t segdag_core_line(segdag_core *core, const uint8_t *line, size_t size, size_t *reply_size);
uint32_t segdag_core_reply(segdag_core *core, size_t from, uint8_t *out, size_t room, size_t *copied);
uint32_t segdag_core_add(segdag_core *core, uint8_t session, const uint8_t name[20], const uint8_t *parents, size_t parents_size, uint64_t *id);
uint32_t segdag_core_id(segdag_core *core, uint8_t session, const uint8_t name[20], uint64_t *id);
uint32_t segdag_core_count(segdag_core *core, uint8_t session, const uint8_t *text, size_t size, uint64_t *count);
uint32_t segdag_core_query(segdag_core *core, uint8_t session, const uint8_t *text, size_t size, size_t *names_size);
uint32_t segdag_core_names(segdag_core *core, size_t from, uint8_t *out, size_t room, size_t *copied);

/* Of two commits, for which no text is read: 1 where a is b or an ancestor of b, and else 0; how many commits a reaches that b doesn't; the merge
   bases, whose names are kept as those of a query are. */
uint32_t segdag_core_is_ancestor(segdag_core *core, uint8_t session, const uint8_t a[20], const uint8_t b[20], uint64_t *is);
uint32_t segdag_core_only(segdag_core *core, uint8_t session, const uint8_t a[20], const uint8_t b[20], uint64_t *count);
uint32_t segdag_core_merge_bases(segdag_core *core, uint8_t session, const uint8_t a[20], const uint8_t b[20], size_t *names_size);

/* The commit at a place, counted from the greatest id, which is at place 1; its name is kept, and none where there are fewer commits. */
uint32_t segdag_core_at_place(segdag_core *core, uint8_t session, uint64_t place, size_t *names_size);

/* Changes, as the session's lines of these words: both sizes of what is stored then are told. names has 20 bytes for each name, of which a strip
   wants at least one. Mirrors are asked as they were renewed. Where one answers SEGDAG_CORE_DISK the store is gone. */
uint32_t segdag_core_flush(segdag_core *core, uint8_t session, const uint8_t *names, size_t names_size, uint64_t *master, uint64_t *others);
uint32_t segdag_core_strip(segdag_core *core, uint8_t session, const uint8_t *names, size_t names_size, uint64_t *master, uint64_t *others);
uint32_t segdag_core_clone(segdag_core *core, uint8_t session, uint64_t *master, uint64_t *others);
uint32_t segdag_core_pull(segdag_core *core, uint8_t session, uint64_t *master, uint64_t *others);

/* Of a session: how many rows it works on, a reload and a discard, which tell its pending rows. */
uint32_t segdag_core_sizes(segdag_core *core, uint8_t session, uint64_t *master, uint64_t *others, uint64_t *pending);
uint32_t segdag_core_reload(segdag_core *core, uint8_t session, uint64_t *pending);
uint32_t segdag_core_discard(segdag_core *core, uint8_t session, uint64_t *pending);

#ifdef __cplusplus
}
#endif
#endif
