/* segdag: the graph of commits under a version control system, asked and changed in your own process. Link libsegdag.a or libsegdag.so; it wants
   the C library alone.

       #include <segdag.h>
       #include <stdio.h>

       static int failed(segdag_code code) {
           if (code)
               fprintf(stderr, "%s\n", segdag_last_error()->text);
           return code != SEGDAG_OK;
       }

       static int use(segdag_store *store) {
           const segdag_id parent = {{1}}, child = {{2}};
           segdag_sizes sizes = SEGDAG_SIZES_INIT;
           uint64_t number;
           bool is;
           if (failed(segdag_commit_add(store, 0, &parent, NULL, 0, &number))
               || failed(segdag_commit_add(store, 0, &child, &parent, 1, &number))
               || failed(segdag_session_flush(store, 0, &child, 1, &sizes))
               || failed(segdag_commit_is_ancestor(store, 0, &parent, &child, &is)))
               return 1;
           printf("%d commits; the first is an ancestor of the second: %d\n", (int)sizes.master, is);
           return 0;
       }

       int main(void) {
           segdag_open_options options = SEGDAG_OPEN_OPTIONS_INIT;
           segdag_store *store;
           options.flags = SEGDAG_OPEN_CREATE;
           if (failed(segdag_store_open("log", &options, &store)))
               return 1;
           int end = use(store);
           segdag_store_close(store);
           return end;
       }

   WORDS. A store is one log, a file, opened. A commit has an *id*, the 20 bytes that others know it by (what segdag's README calls its name), and
   a *number*, which this store gives it: parents have smaller numbers than children, and numbers of commits outside of master change. A
   *session*, 0 to 15, is a client's view of the store: what was stored when it last looked, with its own pending commits on top.

   NAMES. segdag_THING_VERB is a call on a THING: store, session, commit, query, cursor, mirror. A call that may fail answers a segdag_code, 0 for
   success, takes the store first, and writes what it answers to its last arguments; these are defined after success alone. A const
   pointer is read and not kept. What the caller owns has a call named _free or _close, which does nothing for NULL or all zeros.

   THREADS. A store is for any thread: a call waits until the one before it has ended, so no lock of yours is needed, and a store may be handed
   on and closed by another thread than the one that opened it. No call on a store may begin once segdag_store_close has. A cursor, a
   segdag_ids and a segdag_text are for one thread at a time. The last error is the thread's own: where a language moves work between
   threads, one thread makes the call and asks segdag_last_error.

   FAILURES. No call ends the process. NULL where something is to be read or written, a session above 15, a list or a text that is too long are
   SEGDAG_ARGUMENT; a store that is NULL is SEGDAG_CLOSED. Undefined: a store or cursor that was closed; pointers that aren't valid for the
   lengths beside them; memory passed for writing that overlaps other arguments; calls from a signal handler.

   STRUCTS. One with a field `size` is set up by its macro _INIT. Later libraries take that of this header, and this one that of a later header,
   where the fields that it doesn't know are 0; anything else is SEGDAG_ARGUMENT.

   segdag's docs/CLIB.md says what of this is proved. */
#ifndef SEGDAG_H
#define SEGDAG_H
#include <stdbool.h>
#include <stddef.h>
#include <stdint.h>
#ifdef __cplusplus
extern "C" {
#endif

/* ---- the library */

/* Which one this header belongs to, and which one is linked, as in "0.1.0". While the first number is 0 another second one means other calls. */
#define SEGDAG_VERSION "0.1.0"
#define SEGDAG_VERSION_NUMBER 1000 /* the same as a number, a thousand for each step: 2.3.4 is 2003004 */
const char *segdag_version(void);

/* ---- codes */

/* What a call ended with. Later versions add codes at the end. */
typedef enum segdag_code {
    SEGDAG_OK = 0,
    /* Nothing was done. */
    SEGDAG_ARGUMENT = 1,   /* an argument isn't valid: see above */
    SEGDAG_CLOSED = 2,     /* the store is NULL, or was closed for a failure before */
    SEGDAG_FORKED = 3,     /* the store was opened by the process from which this one was forked off: open it anew here */
    SEGDAG_MEMORY = 4,     /* there is not enough memory */
    SEGDAG_NOT_OPENED = 5, /* the file can't be opened or locked, isn't there, or is no regular one; the error has the system's number */
    SEGDAG_LOCKED = 6,     /* another store, in this process or another one, has the log */
    SEGDAG_FOREIGN = 7,    /* the file begins as no log does, as another kind of file or a bundle */
    SEGDAG_NO_LOG = 8,     /* the file is larger than 2^30 bytes, damaged, or no log; of an open store it became so */
    SEGDAG_REPLACED = 9,   /* another file stands at the log's path, or none: close the store and open it again */
    SEGDAG_READ_ONLY = 10, /* the store was opened for reading alone */
    /* The store is closed by this: open it again to see what was stored. */
    SEGDAG_DISK = 11,      /* the log's disk failed: the log is as it was, or with the change */
    SEGDAG_REPLY = 12,     /* no memory to answer what was done */
    /* The store refuses, and nothing changed. The error has the refusal's own text, as COMMANDS.md has it. */
    SEGDAG_SYNTAX = 13,    /* the text is no expression, or no line */
    SEGDAG_UNKNOWN = 14,   /* the session sees no such commit */
    SEGDAG_TWICE = 15,     /* a parent is given twice */
    SEGDAG_DIFFERS = 16,   /* the commit is there with other parents */
    SEGDAG_CONFLICT = 17,  /* a pending commit, or one to be pulled, is stored with other parents */
    SEGDAG_LOST = 18,      /* a pending commit's parent was stripped */
    SEGDAG_MASTER = 19,    /* a commit to be stripped is in master */
    SEGDAG_EMPTY = 20,     /* a strip would leave nothing */
    SEGDAG_FULL = 21,      /* a limit is reached */
    SEGDAG_ANSWER = 22,    /* a query has more members than a line's reply may have */
    SEGDAG_NOT_EMPTY = 23, /* a clone where something is stored */
    SEGDAG_PENDING = 24,   /* a clone, a pull or a strip while the session has pending commits */
    SEGDAG_NO_REMOTE = 25, /* a mirror has to be asked, and there is none */
    SEGDAG_REMOTE = 26,    /* all mirrors failed in one question; asked again they may answer */
    SEGDAG_MISMATCH_PATH = 27,
    SEGDAG_MISMATCH_NAMES = 28,
    SEGDAG_MISMATCH_CLONE = 29,
    SEGDAG_MISMATCH_ROW = 30, /* a mirror's answer can't be right */
    SEGDAG_LINE = 31,         /* a line is longer than SEGDAG_LINE_BYTES */
    /* Of logs in a database alone (segdag_postgres.h). Where one of these ends a change the store is closed, but for SEGDAG_STALE and where no
       transaction had begun. */
    SEGDAG_UNSURE = 32,   /* it isn't known whether the change is stored: open the store again to see */
    SEGDAG_GONE = 33,     /* there is no connection to the database: nothing was stored */
    SEGDAG_RACED = 34,    /* another writer stored first: nothing was stored */
    SEGDAG_STALE = 35,    /* the server is no primary, or an earlier one, or has what isn't sure: nothing was stored or taken */
    SEGDAG_DATABASE = 36, /* the database refused a statement: nothing was stored */
    SEGDAG_CANCELLED = 37, /* the store's progress call said not to go on: nothing was done, and the call may be made again */
    SEGDAG_CODES = 38      /* how many there are */
} segdag_code;

/* A code's name as text, as in "not-opened", and what it says as a sentence. Never NULL; they stand for ever. */
const char *segdag_code_name(segdag_code code);
const char *segdag_code_text(segdag_code code);

/* The 20 bytes by which a commit is known. */
#define SEGDAG_ID_SIZE 20
typedef struct segdag_id {
    unsigned char id[SEGDAG_ID_SIZE];
} segdag_id;

/* Why a call failed. Later versions add fields at its end. */
typedef struct segdag_error {
    segdag_code code;
    int system;       /* what the system said, as in ENOSPC of <errno.h>; 0 where it wasn't the system */
    const char *call; /* the call that the system refused, as in "pwrite"; else NULL */
    bool has_id;      /* whether it is about one commit: the one that isn't there, is given twice, differs and so on */
    segdag_id id;
    char text[512];   /* a line for people, without an end: "unknown 00..07", "full pending 65536", "log: open: Permission denied" */
} segdag_error;

/* Why the last call of this thread that failed did so; code 0 where none has. Never NULL. It stands until the thread's next call that fails. */
const segdag_error *segdag_last_error(void);

/* ---- limits */

#define SEGDAG_SESSIONS 16
#define SEGDAG_MOST_PARENTS 8            /* of a commit */
#define SEGDAG_MOST_HEADS 399            /* ids that one flush or strip is given */
#define SEGDAG_MOST_PENDING 65536        /* commits that a session has pending */
#define SEGDAG_MOST_OTHERS 65536         /* commits outside of master */
#define SEGDAG_MOST_MASTER 16777216      /* commits in master */
#define SEGDAG_MOST_MIRRORS 65536
#define SEGDAG_MOST_CACHE 65536          /* ids of mirrors that are kept */
#define SEGDAG_LOG_BYTES 1073741824      /* of a log, which is read as a whole when it is opened */
#define SEGDAG_LINE_BYTES 16384          /* of a line, and of an expression */

/* Numbers of commits outside of master are this and more: what README writes as N0 is SEGDAG_OTHERS, N1 is SEGDAG_OTHERS + 1. */
#define SEGDAG_OTHERS ((uint64_t)1 << 56)

/* ---- stores */

typedef struct segdag_store segdag_store;

/* How a log is opened. Without a flag it has to be there, is opened for changes, and nobody else has it. */
typedef enum segdag_open_flag {
    SEGDAG_OPEN_CREATE = 1,    /* where nothing is at the path a new log is made */
    SEGDAG_OPEN_READ_ONLY = 2, /* beside others that only read it; no writer has it meanwhile. Changes are refused: SEGDAG_READ_ONLY */
    SEGDAG_OPEN_FOLLOW = 4,    /* beside whoever writes it, without a lock. Changes are refused; segdag_store_refresh takes what was stored */
    SEGDAG_OPEN_ANY_FILE = 8   /* a file that begins as no log does is taken for one in which nothing is stored: a change writes over it */
} segdag_open_flag;

/* Waits for the lock without an end. */
#define SEGDAG_FOREVER UINT32_MAX

/* What a call is doing when it asks whether to go on. Later versions add stages at the end. */
typedef enum segdag_stage {
    SEGDAG_STAGE_LOCK = 1,  /* it waits for the log's lock, and asks every few milliseconds: these are counted */
    SEGDAG_STAGE_READ = 2,  /* it reads a file, the log or a mirror, and asks each 2^20 bytes: these are counted */
    SEGDAG_STAGE_LOAD = 3,  /* it has read the log, and asks once before it builds the tables, which isn't interrupted: bytes of the log */
    SEGDAG_STAGE_ANSWER = 4, /* it answers, and asks before each pair of segdag_commit_ahead_behind, or each 2^20 members of a query: these are counted */
    SEGDAG_STAGE_STORE = 5   /* of segdag_postgres.h alone: it writes a log as a whole, and asks before each piece: bytes of the log */
} segdag_stage;

/* Later versions add fields at its end. */
typedef struct segdag_progress {
    segdag_stage stage;
    uint64_t done, whole; /* whole is 0 where it isn't known */
} segdag_progress;

/* Is told how far a call has come, by the thread that makes it, and answers whether to cancel it, which then ends with SEGDAG_CANCELLED. Within it a
   call on the same store is SEGDAG_ARGUMENT, and segdag_store_close does nothing. */
typedef bool (*segdag_progress_call)(const segdag_progress *progress, void *context);

typedef struct segdag_open_options {
    size_t size;         /* of this struct: SEGDAG_OPEN_OPTIONS_INIT sets it */
    uint32_t flags;      /* of segdag_open_flag; CREATE, READ_ONLY and FOLLOW exclude each other */
    uint32_t wait;       /* milliseconds to wait at most while another store has the log; 0: not at all */
    uint32_t cache;      /* ids of mirrors that are kept, up to SEGDAG_MOST_CACHE; 0: 4096 */
    uint64_t most_bytes; /* a longer log is SEGDAG_NO_LOG, so that it isn't read; 0: SEGDAG_LOG_BYTES */
    segdag_progress_call progress; /* asked while the log is opened and in later calls on the store, until it is closed; NULL: nobody is */
    void *context;                 /* what it is given */
} segdag_open_options;

#define SEGDAG_OPEN_OPTIONS_INIT {sizeof (segdag_open_options), 0, 0, 0, 0, NULL, NULL}

/* Opens the log at this path. options may be NULL: then it has to be there. *store is NULL unless the code is 0; let go by segdag_store_close.
   SEGDAG_NOT_OPENED, SEGDAG_LOCKED, SEGDAG_FOREIGN, SEGDAG_NO_LOG, SEGDAG_DISK where what it found couldn't be made sure of, SEGDAG_MEMORY.

   A store opened for changes looks, before each change, whether its file is still the one at the path: SEGDAG_REPLACED where it is known not
   to be, and SEGDAG_NO_LOG where the file became shorter. It goes on answering questions. */
segdag_code segdag_store_open(const char *path, const segdag_open_options *options, segdag_store **store);

/* Opens another store that follows the log of this one, with its cache and its mirrors: one more reader in this process, for a thread of its own. It
   takes the time and memory of opening the log. The progress call of this store is told of it, and has nothing to do with the other one later. */
segdag_code segdag_store_follow(segdag_store *store, segdag_store **follower);

/* Lets go of the log and its lock; does nothing for NULL. What wasn't flushed is gone. In a process that was forked off since it was opened it lets go
   of the file alone, and the lock stays the other process's. */
void segdag_store_close(segdag_store *store);

/* Of a store that follows: takes what another process stored since, and tells how many changes came; of others *changes is 0. Each session
   stays where it is until it is reloaded. SEGDAG_REPLACED, SEGDAG_NO_LOG, SEGDAG_FOREIGN and SEGDAG_MEMORY leave it answering what it had, and it
   may be tried again. *changes says what came before a failure, too. */
segdag_code segdag_store_refresh(segdag_store *store, uint64_t *changes);

/* Text that grows as it is wanted: all zeros at first, ended by a byte 0 that isn't counted. Yours; let go by segdag_text_free. */
typedef struct segdag_text {
    char *bytes;
    size_t size, room;
} segdag_text;

#define SEGDAG_TEXT_INIT {NULL, 0, 0}

void segdag_text_free(segdag_text *text);

/* Answers a line of the command language (COMMANDS.md), given without its end, be it "\n" or "\r\n". reply is the program's reply, with the
   ends of its lines; empty for a line that has none. A refusal is a reply, and the code is then 0. A change is on the disk when this returns.

       segdag_text reply = SEGDAG_TEXT_INIT;
       segdag_store_line(store, "0 query heads(all)", 18, &reply); */
segdag_code segdag_store_line(segdag_store *store, const char *line, size_t size, segdag_text *reply);

/* Adds a mirror behind the others: a log that this one may be a clone of, by its path, or a bundle by "bundle:PATH". The file is read as a whole,
   without a lock: now, before each clone and pull, and where all mirrors failed another call, which is then made once more. One that can't be
   read, or begins as no log does, is a mirror that fails when it is asked. "pipe:" is SEGDAG_ARGUMENT. */
segdag_code segdag_mirror_add(segdag_store *store, const char *word);

/* ---- sessions */

/* How many commits there are: in master and outside of it, of what was stored, or of what a session works on, and pending in it. */
typedef struct segdag_sizes {
    size_t size; /* of this struct: SEGDAG_SIZES_INIT sets it */
    uint64_t master, others, pending;
} segdag_sizes;

#define SEGDAG_SIZES_INIT {sizeof (segdag_sizes), 0, 0, 0}

/* What the session works on. */
segdag_code segdag_session_sizes(segdag_store *store, unsigned session, segdag_sizes *sizes);

/* Stores the session's pending commits, and moves what these heads reach to master for good; sizes of what is stored, which the session is on
   then. It is on the disk when this returns. heads may be NULL where there are none; at most SEGDAG_MOST_HEADS.
   SEGDAG_UNKNOWN, SEGDAG_CONFLICT, SEGDAG_LOST, SEGDAG_FULL; SEGDAG_READ_ONLY, SEGDAG_REPLACED; SEGDAG_DISK. */
segdag_code segdag_session_flush(segdag_store *store, unsigned session, const segdag_id *heads, size_t count, segdag_sizes *sizes);

/* Removes these stored commits and their descendants, none of which may be in master. 1 to SEGDAG_MOST_HEADS ids. As segdag_session_flush, and
   SEGDAG_PENDING, SEGDAG_MASTER, SEGDAG_EMPTY. */
segdag_code segdag_session_strip(segdag_store *store, unsigned session, const segdag_id *ids, size_t count, segdag_sizes *sizes);

/* Stores a mirror's master, with a few of its ids, in a log that has nothing; others are asked of mirrors when they are wanted. */
segdag_code segdag_session_clone(segdag_store *store, unsigned session, segdag_sizes *sizes);

/* Stores what is new in a mirror's master behind what is there, with its ids. */
segdag_code segdag_session_pull(segdag_store *store, unsigned session, segdag_sizes *sizes);

/* Takes the session to the newest version that is stored; of a store that follows, what came is taken first. Tells how many pending commits it
   keeps. */
segdag_code segdag_session_reload(segdag_store *store, unsigned session, uint64_t *pending);

/* Lets the session's pending commits go, and tells how many they were. */
segdag_code segdag_session_discard(segdag_store *store, unsigned session, uint64_t *pending);

/* ---- commits */

/* Adds a pending commit, and tells its number; one that is there with the same parents stays as it is. parents may be NULL where there are
   none; at most SEGDAG_MOST_PARENTS. SEGDAG_UNKNOWN, SEGDAG_TWICE, SEGDAG_DIFFERS, SEGDAG_FULL. */
segdag_code segdag_commit_add(segdag_store *store, unsigned session, const segdag_id *id, const segdag_id *parents, size_t count, uint64_t *number);

/* The number of an id, and the id of a number. SEGDAG_UNKNOWN where the session sees no such commit. */
segdag_code segdag_commit_number(segdag_store *store, unsigned session, const segdag_id *id, uint64_t *number);
segdag_code segdag_commit_id(segdag_store *store, unsigned session, uint64_t number, segdag_id *id);

/* Whether a is b, or an ancestor of b. */
segdag_code segdag_commit_is_ancestor(segdag_store *store, unsigned session, const segdag_id *a, const segdag_id *b, bool *is);

/* Ids that grow as they are wanted: all zeros at first. Yours; let go by segdag_ids_free. */
typedef struct segdag_ids {
    segdag_id *ids;
    size_t count, room;
} segdag_ids;

#define SEGDAG_IDS_INIT {NULL, 0, 0}

void segdag_ids_free(segdag_ids *ids);

/* The merge bases of both: what both reach, and nothing else that both reach does. */
segdag_code segdag_commit_merge_bases(segdag_store *store, unsigned session, const segdag_id *a, const segdag_id *b, segdag_ids *bases);

typedef struct segdag_pair {
    segdag_id left, right;
} segdag_pair;

typedef struct segdag_distance {
    uint64_t ahead, behind;
} segdag_distance;

/* Of each pair, how many commits the left one reaches that the right one doesn't, and the other way round. It stops at the first pair that is
   refused, or before which it is cancelled, and *done is that pair's place: those in front of it are answered. Else *done is count. */
segdag_code segdag_commit_ahead_behind(segdag_store *store, unsigned session, const segdag_pair *pairs, size_t count, segdag_distance *distances, size_t *done);

/* ---- queries: expressions, as "heads(all)" or "only(ID,ID)" with ids as 40 hex digits (COMMANDS.md) */

/* How many members an expression has. SEGDAG_SYNTAX, SEGDAG_UNKNOWN. */
segdag_code segdag_query_count(segdag_store *store, unsigned session, const char *expression, size_t size, uint64_t *count);

/* The ids of its members, the greatest number first. */
segdag_code segdag_query_ids(segdag_store *store, unsigned session, const char *expression, size_t size, segdag_ids *members);

/* The same, a block at a time: members as they are when it is opened, whatever becomes of the store. The cursor has a copy, of 20 bytes a member.

       segdag_cursor *cursor;
       segdag_id block[100];
       size_t count;
       segdag_query_open(store, 0, "all", 3, &cursor);
       while (!segdag_cursor_next(cursor, block, 100, &count) && count > 0)
           use(block, count);
       segdag_cursor_close(cursor); */
typedef struct segdag_cursor segdag_cursor;

segdag_code segdag_query_open(segdag_store *store, unsigned session, const char *expression, size_t size, segdag_cursor **cursor);

/* The next ids, as many as there is room for; *count is 0 behind the last one. */
segdag_code segdag_cursor_next(segdag_cursor *cursor, segdag_id *ids, size_t room, size_t *count);

/* How many are left. */
uint64_t segdag_cursor_left(const segdag_cursor *cursor);

/* At any time, also once the store is closed; does nothing for NULL. */
void segdag_cursor_close(segdag_cursor *cursor);

#ifdef __cplusplus
}
#endif
#endif
