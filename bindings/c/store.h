/* What the files of the shim share. */
#ifndef SEGDAG_SHIM_H
#define SEGDAG_SHIM_H
#include "segdag.h"
#include "segdag_core.h"
#include <pthread.h>
#include <signal.h>
#include <sys/types.h>

/* ---- failures (errors.c), of the call that this thread is in */

/* Forgets what was known of a call before. */
void error_begin(void);

/* Keeps what is known of this call apart from those that are made meanwhile, and goes on with it. */
void error_hold(segdag_error *held);
void error_resume(const segdag_error *held);

/* Keeps errno, and which call of the system left it there. */
void error_system(const char *call);

/* Keeps the commit that it is about. */
void error_id(const segdag_id *id);

/* Keeps what is said of it. */
void error_text(const char *format, ...);

/* Keeps what a reply says that is a refusal, and the commit that it is about. */
void error_reply(const char *reply);

/* The code of a reply: SEGDAG_OK, or that of the refusal whose words stand behind `err`. */
segdag_code error_of_reply(const char *reply);

/* Ends the call with this code, which is handed on: a failure becomes this thread's last one. The path, where there is one, is that of its file. */
segdag_code error_end(segdag_code code, const char *path);

/* Ends a call that was none. */
segdag_code error_refuse(segdag_code code);

/* ---- progress (progress.c) */

/* Whom a call asks whether to go on; nobody where `call` is NULL. */
typedef struct watcher {
    segdag_progress_call call;
    void *context;
} watcher;

/* Asks it, where so much was done: SEGDAG_OK, or SEGDAG_CANCELLED. */
segdag_code watcher_ask(const watcher *asked, segdag_stage stage, uint64_t done, uint64_t whole);

/* ---- files (files.c). What fails keeps why by error_system. */

/* Opens a file, which is none of the three standard descriptors, whichever of these are closed. */
int file_open(const char *path, int flags);

/* Opens the folder of the file to which the path leads, through links too; the file may not be there yet. */
int file_open_folder(const char *path);

int file_sync(int fd);

/* Makes sure of what a folder lists, where folders can be synced, and one was opened. */
int file_sync_folder(int folder);

/* Reads *size bytes from a place on, or up to the file's end, and makes *size how many these are. SEGDAG_DISK where it fails, and
   SEGDAG_CANCELLED where it isn't to go on. */
segdag_code file_read(int fd, uint8_t *bytes, size_t *size, uint64_t from, const watcher *asked);

int file_write(int fd, const uint8_t *bytes, size_t size, uint64_t at);

/* The size of a regular file; -1 where it can't be told, or is none. */
int file_size(int fd, uint64_t *size);

/* Whether these are the first bytes of what no log begins with: a log's first byte is 0 or 1, but where it has no other. */
bool file_is_foreign(const uint8_t *bytes, size_t size);

/* The signal that a write gets which would make a file longer than the process may. It is held in between, so that the write fails and
   nobody is ended. */
typedef struct file_signal {
    sigset_t wanted, before;
    bool is_held, was_pending;
} file_signal;

void file_hold_signal(file_signal *held);
void file_drop_signal(const file_signal *held);

/* Whether both are known to be one file. */
bool file_are_same(int fd, int other);

/* Whether the file is known not to be the one at the path any more: it has no name, or another one stands there, or none. */
bool file_is_replaced(int fd, const char *path);

/* What is wanted of a file, and how many milliseconds to wait for its lock; SEGDAG_FOREVER where there is no end. */
typedef struct file_wish {
    bool may_write, may_make;
    uint32_t wait;
    watcher asked;
} file_wish;

/* A file, and the folder of one that has no bytes yet, as far as it can be opened; else -1. */
typedef struct file_log {
    int fd, folder;
} file_log;

/* Opens the regular file at the path with its lock, for writers alone or among readers. What can't be opened whole isn't made. */
segdag_code file_open_locked(const char *path, const file_wish *wish, file_log *log);

void file_close(file_log *log);

/* ---- stores (stores.c) */

/* The file of a mirror, whose number in the core is its place among these. */
typedef struct store_mirror {
    char *path; /* NULL once the core has dropped it */
    segdag_core_mirror kind;
} store_mirror;

/* What differs between the places where a log is kept. A store without one is over a file. */
typedef struct store_engine {
    /* Before each line: takes what others stored where the line looks at what is stored, and where it may change that keeps others from
       storing until `after`. With another code than SEGDAG_OK the line isn't answered. */
    segdag_code (*before)(segdag_store *store, const char *line, size_t size);

    /* Performs what the core noted, all or none of it, and only then is a reply told. With another code the store is closed. */
    segdag_code (*perform)(segdag_store *store);

    /* Behind each line that `before` let pass, unless the store was closed by then. */
    void (*after)(segdag_store *store);

    /* Takes what others stored, and tells how many changes came: segdag_store_refresh. */
    segdag_code (*more)(segdag_store *store, uint64_t *count);

    /* Lets go of the place. */
    void (*close)(segdag_store *store);
} store_engine;

struct segdag_store {
    pthread_mutex_t turn; /* whose call it is */
    pid_t process;        /* which process opened it, and */
    unsigned forks;       /* how often that had been forked off */
    segdag_core core;
    const store_engine *engine;
    void *place;         /* the engine's own; NULL once the store was closed */
    int fd;              /* the log's file, with its lock unless it is followed; -1 once the store was closed for a failure */
    char *path;          /* of the log, from the root on; NULL where it is in no file */
    uint32_t cache;      /* room for so many names of mirrors */
    uint64_t most_bytes; /* a log has at most so many */
    watcher asked;       /* whether calls are to go on */
    bool only_reads;     /* whether nothing is written: it is followed, or was opened so */
    bool follows;        /* whether another process may write it */
    bool takes_any;      /* whether it may begin as no log does */
    segdag_text reply;   /* of lines that the shim makes */
    store_mirror *mirrors;
    size_t count, room; /* how many were added */
};

/* Begins a call, and takes the store for it: SEGDAG_OK where it isn't NULL, is open, and was opened by this process. Else the call has ended, and
   nothing is to be done but to tell the code. */
segdag_code store_enter(segdag_store *store);

/* Ends the call, whose code is handed on. */
segdag_code store_leave(segdag_store *store, segdag_code code);

/* A store that isn't open yet, of the log at this path, if there is one; NULL where there is no memory. segdag_store_close lets it go. */
segdag_store *store_make(const char *path);

/* Whether a struct whose first field is its size is one of this library's header, of so many bytes, or of a later one, which says nothing that
   this library doesn't know. */
bool store_takes_size(const size_t *size, size_t known);

/* Lets go of what the core noted, without performing it, and tells whether there was anything. */
bool store_drop_noted(segdag_store *store);

/* Performs what the core noted, in order, where a file that may not grow is a failure like any other. */
int store_perform(segdag_store *store);

/* Opens the log at its path to follow it. */
segdag_code store_open_follower(segdag_store *store);

/* Takes what another process stored since. */
segdag_code store_more(segdag_store *store, uint64_t *count);

/* What is done before a line is answered. A change is refused where the store only reads, or its file isn't the one at its path any more;
   a follower's reload takes what came. */
segdag_code store_before_line(segdag_store *store, const char *line, size_t size);

/* Ends a call of the core that may have changed what is stored: what it noted is performed, and where it or the disk failed the store is
   closed (lines.c). */
segdag_code store_settle(segdag_store *store, segdag_code code);

/* Answers a line (lines.c). */
segdag_code store_line(segdag_store *store, const char *line, size_t size, segdag_text *reply);

/* ---- mirrors (mirrors.c) */

/* Adds one that isn't in a pipe, and reads its file. */
segdag_code store_add_mirror(segdag_store *store, const char *path, segdag_core_mirror kind);

/* Whether a call that ended so is to be made once more: all mirrors failed in it, and their files were read anew. */
bool store_asks_again(segdag_store *store, segdag_code code);

/* Makes a call of the core, and once more where all mirrors failed in it and were read anew. */
#define STORE_ASKED(store, code, call)          \
    do {                                        \
        code = segdag_core_code(call);          \
        if (store_asks_again((store), code))    \
            code = segdag_core_code(call);      \
    } while (0)

/* Reads the files of all mirrors anew. SEGDAG_MEMORY where one finds no room. */
segdag_code store_read_mirrors(segdag_store *store);

/* Lets go of what is kept of mirrors. */
void store_free_mirrors(segdag_store *store);

/* Copies the ids of so many bytes that the core keeps (queries.c). */
segdag_code store_take_found(segdag_store *store, size_t bytes, segdag_ids *found);

/* Closes the core and the file for a failure, and hands the code on. */
segdag_code store_fail(segdag_store *store, segdag_code code);

/* Makes room for so many items of this size, and keeps what is there. */
bool store_grow(void **bytes, size_t *room, size_t wanted, size_t item);

#endif
