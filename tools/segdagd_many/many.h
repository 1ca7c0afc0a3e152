/* A server of many logs below one folder: what its files share. */
#ifndef SEGDAGD_MANY_H
#define SEGDAGD_MANY_H
#define _GNU_SOURCE
#include "store.h"
#include <pthread.h>
#include <stdatomic.h>
#include <stdbool.h>
#include <stddef.h>
#include <stdint.h>
#include <sys/stat.h>

#define SESSIONS 16
#define LINE 16381   /* bytes of a client's line: with a session's number and a space they are the 16,384 of a store's */
#define PIECE 65536  /* bytes of lines that wait, and of replies that weren't taken, with which no more is done for a client */
#define TURN 32      /* lines of one turn of a client */
#define NAME_ROOM 1024

/* Numbers of a last line `err ended N`. */
enum {
    ENDED = 0, DISK = 3, NO_LOG = 4, NO_MEMORY = 7, NOT_OPENED = 9, LENT = 17, FOREIGN = 18, GONE = 19, NO_ROOM = 20,
    UNSURE = 23, UNREACHED = 24, RACED = 25, STALE = 26, DATABASE = 27, GOES_ON = -1
};

typedef struct client client;
typedef struct kept_log kept_log;

/* An open store: the writer of a log, or a follower of it. One thread uses it at a time, the one that made it busy. */
typedef struct handle {
    kept_log *log;
    segdag_store *store;
    int folder; /* the folder by which its path goes */
    dev_t device;
    ino_t file;
    bool follows, is_busy;
    size_t figure;               /* how many bytes it is taken to have */
    size_t mirrors;              /* bytes of its mirrors' files, as they were read last */
    uint64_t end;                /* where the log ends that it has loaded, as of the end of its last turn */
    unsigned rules;              /* by which version of the configuration it was opened */
    client *sessions[SESSIONS];  /* whose each is */
    client *first, *last;        /* who waits for it */
    struct handle *next;         /* of the followers of its log */
} handle;

/* A log that clients name. All but its name and its place in the table is looked at with its lock held. */
struct kept_log {
    char *name;
    kept_log *next_of_table, *older, *newer;
    size_t users; /* how many clients name it */
    bool is_listed;
    atomic_bool is_used; /* since it was last looked at for closing */
    pthread_mutex_t lock;
    handle *writer, *followers;
    unsigned count;
    client *first, *last; /* who waits for a session of the writer */
};

/* Bytes that grow. What is in front of `at` is done. */
typedef struct bytes {
    char *bytes;
    size_t at, size, room;
} bytes;

/* A connection. Whoever has its turn reads and writes it; what stands behind `log` is looked at with the log's lock held. */
struct client {
    pthread_mutex_t turn;
    int fd; /* -1 while it is nobody's */
    uint64_t number;
    bytes in, out;
    bool is_over, is_told; /* it sends no more; it had its last line */
    atomic_bool is_known;               /* it said a line */
    atomic_llong moved, came;           /* when it took something, or began to have something to take; when it came */
    atomic_size_t unsent;               /* bytes of replies that it didn't take */
    struct {
        uint64_t lines, refused, in, out, nanoseconds;
    } told;
    client *before, *behind, *next; /* of all clients, or of the free ones; of those who wait */
    kept_log *log;
    handle *handle;
    int session;
    bool has_rows, is_running, is_waiting;
    bool is_new, moves; /* its session has to be brought to the newest version, which it may be for the first line that changes */
    bool has_base; /* which version it was on: the file, and the place at which it ended */
    ino_t base_file;
    uint64_t base;
    atomic_int doom; /* with which number it is to be told its end, or GOES_ON */
    unsigned may, rules; /* its rights, and by which version of the configuration */
    bool is_ready;   /* it is among those that are served without an event */
    client *next_ready;
    long long active;
};

typedef struct options {
    const char *root, *socket, *metrics, *log, *config;
    size_t memory, replies;
    unsigned threads, followers, most, handles;
    double slow, idle, slow_log;
    long group;
    bool json;
} options;

extern options many;
extern int many_root, many_epoll, many_door, many_ready;
extern atomic_bool many_stops;
extern atomic_uint lines_under_way;

/* ---- main.c */
long long now(void); /* nanoseconds of a clock that only goes on */
void say(const char *format, ...) __attribute__((format(printf, 1, 2)));

/* ---- rules.c: mirrors and rights */
enum { MAY_READ = 1, MAY_WRITE = 2 };
extern atomic_uint rules_version;
bool rules_read(void); /* reads the configuration; one that is wrong is told, and the one before stays */
unsigned rules_rights(int fd, const char *log); /* what the peer of a connection may do with a log */
bool rules_have(const struct stat *file); /* whether it is the configuration */
bool rules_have_mirror(const char *log);
segdag_code rules_add_mirrors(const char *log, segdag_store *store);

/* ---- root.c: names below the root */
bool name_is_fine(const char *name, size_t size);
segdag_code root_open(kept_log *log, bool follows, bool makes, handle **made);
void root_close(handle *open);
bool root_has(const handle *open); /* whether the file of an open store is the one of its name */
bool root_finds(const char *name);
size_t figure_of(const handle *open);
void root_measure_mirrors(handle *open);
uint64_t end_of(const handle *open); /* where the log ends that it has loaded */

/* ---- database.c */
bool root_is_database(void);
bool database_is_built(void);
segdag_code database_open(handle *made, uint32_t cache, bool makes);

/* ---- logs.c: which are open, and whose each session is */
kept_log *log_of(const char *name);
void log_leave(kept_log *log);
segdag_code log_try(kept_log *log, bool makes); /* opens it where nothing of it is open */
void logs_trim(void);
uint64_t logs_lag(void);

typedef enum outcome { HAS_IT, PARKED, REFUSED, TOLD } outcome;
outcome session_take(client *one, bool changes, segdag_code *why);
void session_give(client *one);
void session_fail(client *one, int code); /* closes the store that it has: all others with a session of it are told */
void session_rest(client *one);  /* lets go of what it waits for or has in use */
void session_leave(client *one);

/* ---- lines.c: answers */
typedef enum step { GO_ON, LATER, DONE } step;
step lines_run(client *one);

/* ---- clients.c */
bool bytes_put(bytes *to, const char *from, size_t size);
void client_put(client *one, const char *text, size_t size);
void client_tell(client *one, int code);
void client_wake(client *one);
void clients_begin(void);
void clients_event(void *of);
void clients_tick(void);
void clients_stop(void);
unsigned clients_count(void);
void clients_arm_door(void);

/* ---- numbers.c */
typedef enum number {
    N_LINES_IN, N_BYTES_IN, N_BYTES_OUT, N_ACCEPTED, N_USES, N_LOADS, N_CLOSED, N_CHANGES, N_LENT, N_CUT, N_SLOW, N_COUNT
} number;
void number_add(number which, uint64_t count);
void line_told(client *one, const char *line, size_t size, const char *reply, size_t reply_size, long long took);
int numbers_open(void);
void numbers_answer(int door);
void slow_log_open(void);
extern atomic_size_t open_stores, open_bytes, reply_bytes;
#endif
