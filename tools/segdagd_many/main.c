/* segdagd-many: serves the logs below a folder to the clients of a Unix socket. docs/DAEMON.md says what it promises. */
#include "many.h"
#include <errno.h>
#include <fcntl.h>
#include <getopt.h>
#include <grp.h>
#include <signal.h>
#include <stdarg.h>
#include <stdio.h>
#include <stdlib.h>
#include <string.h>
#include <sys/epoll.h>
#include <sys/eventfd.h>
#include <sys/file.h>
#include <sys/resource.h>
#include <sys/socket.h>
#include <sys/un.h>
#include <time.h>
#include <unistd.h>

#define EVENTS 1 /* so that no other thread waits for what one has taken */
#define STACK (1 << 19)
#define RESERVE 64 /* descriptors that are no client's and no store's */
#define LAST 5     /* seconds in which clients take their last line */
#define CONNECTIONS 50 /* to a database, of which each store has one */

options many = {.memory = (size_t)1 << 30, .replies = (size_t)1 << 28, .threads = 32, .followers = 4, .most = 10240, .handles = UINT32_MAX, .slow = 30,
                .idle = -1, .slow_log = -1, .group = -1};
int many_root = -1, many_epoll = -1, many_door = -1, many_ready = -1;
atomic_bool many_stops;
static bool is_given; /* the door was handed over */
static struct stat door_place;

static const char usage[] =
    "usage: segdagd --root FOLDER --socket PATH [OPTION]..\n"
    "  --root FOLDER       serve the logs below this folder, or in this database: postgresql://..\n"
    "  --socket PATH       where to listen; not needed if systemd passes a socket\n"
    "  --group NAME        members of this group may connect too (mode 0660 instead of 0600)\n"
    "  --config FILE       mirrors of logs, and who may read and write them; SIGHUP reads it again\n"
    "  --memory MB         close the stores used longest ago while all take more than this (1024)\n"
    "  --stores N          the same for how many are open (as many as there are descriptors for)\n"
    "  --clients N         connections at a time (10240)\n"
    "  --threads N         lines under way at a time (32)\n"
    "  --followers N       of these, questions to one log (as many as processors)\n"
    "  --replies MB        unread replies that are kept, of all clients (256)\n"
    "  --slow SECONDS      disconnect a client that reads no reply for this time (30)\n"
    "  --idle SECONDS      exit after this time without a client\n"
    "  --metrics PATH|PORT serve numbers for Prometheus on this socket or local port\n"
    "  --slow-log MS       report each line that takes this long, on standard error\n"
    "  --log FILE          report them in this file instead; SIGHUP opens it again\n"
    "  --json              report them as JSON\n";

long long now(void) {
    struct timespec at;
    clock_gettime(CLOCK_MONOTONIC, &at);
    return at.tv_sec * 1000000000LL + at.tv_nsec;
}

void say(const char *format, ...) {
    va_list words;
    char text[1024];
    va_start(words, format);
    vsnprintf(text, sizeof text, format, words);
    va_end(words);
    fprintf(stderr, "segdagd: %s\n", text);
}

static void refuse(int status, const char *what, const char *why) {
    say("%s: %s", what, why);
    exit(status);
}

/* ---- words */

static double number_of(const char *option, const char *text, double least, double most) {
    char *end;
    double value = strtod(text, &end);
    if (end == text || *end || !(value >= least && value <= most)) {
        say("--%s %s: a number from %g to %g was expected", option, text, least, most);
        exit(2);
    }
    return value;
}

static long group_of(const char *name) {
    char *end;
    long number = strtol(name, &end, 10);
    struct group *found = *end || end == name ? getgrnam(name) : NULL;
    if (!found && (*end || end == name || number < 0))
        refuse(2, "--group", "no such group");
    return found ? (long)found->gr_gid : number;
}

enum { ROOT, SOCKET, GROUP, MEMORY, STORES, CLIENTS, THREADS, FOLLOWERS, REPLIES, SLOW, IDLE, METRICS, SLOW_LOG, LOG, CONFIG, JSON, HELP };

static const struct option words_of[] = {
    {"root", 1, 0, ROOT}, {"socket", 1, 0, SOCKET}, {"group", 1, 0, GROUP}, {"memory", 1, 0, MEMORY}, {"stores", 1, 0, STORES},
    {"clients", 1, 0, CLIENTS}, {"threads", 1, 0, THREADS}, {"followers", 1, 0, FOLLOWERS}, {"replies", 1, 0, REPLIES}, {"slow", 1, 0, SLOW},
    {"idle", 1, 0, IDLE}, {"metrics", 1, 0, METRICS}, {"slow-log", 1, 0, SLOW_LOG}, {"log", 1, 0, LOG}, {"config", 1, 0, CONFIG}, {"json", 0, 0, JSON},
    {"help", 0, 0, HELP}, {0, 0, 0, 0}};

static void take_word(int which, const char *word) {
    const char *name = words_of[which].name;
    switch (which) {
    case ROOT: many.root = word; break;
    case SOCKET: many.socket = word; break;
    case GROUP: many.group = group_of(word); break;
    case MEMORY: many.memory = (size_t)number_of(name, word, 1, 1 << 24) << 20; break;
    case STORES: many.handles = (unsigned)number_of(name, word, 1, 1 << 24); break;
    case CLIENTS: many.most = (unsigned)number_of(name, word, 1, 1 << 20); break;
    case THREADS: many.threads = (unsigned)number_of(name, word, 1, 1024); break;
    case FOLLOWERS: many.followers = (unsigned)number_of(name, word, 1, 1024); break;
    case REPLIES: many.replies = (size_t)number_of(name, word, 1, 1 << 20) << 20; break;
    case SLOW: many.slow = number_of(name, word, 0, 1e9); break;
    case IDLE: many.idle = number_of(name, word, 0, 1e9); break;
    case METRICS: many.metrics = word; break;
    case SLOW_LOG: many.slow_log = number_of(name, word, 0, 1e9); break;
    case LOG: many.log = word; break;
    case CONFIG: many.config = word; break;
    case JSON: many.json = true; break;
    case HELP: fputs(usage, stdout); exit(0);
    default: fputs(usage, stderr); exit(2);
    }
}

static void read_words(int count, char **words) {
    long processors = sysconf(_SC_NPROCESSORS_ONLN);
    many.followers = processors > 0 ? (unsigned)processors : 1;
    for (int which; (which = getopt_long(count, words, "", words_of, NULL)) >= 0;)
        take_word(which == '?' ? HELP + 1 : which, optarg);
    if (optind < count || !many.root) {
        fputs(usage, stderr);
        exit(2);
    }
}

/* ---- descriptors and doors */

/* No store is opened as one of the three standard descriptors. */
static void fill_low(void) {
    int fd;
    do
        fd = open("/dev/null", O_RDWR);
    while (fd >= 0 && fd < 3);
    if (fd >= 3)
        close(fd);
}

/* Clients have their descriptors, and each store two; what is wanted of either is lessened to what there is. */
static void share_descriptors(void) {
    struct rlimit limit;
    if (getrlimit(RLIMIT_NOFILE, &limit))
        refuse(1, "descriptors", strerror(errno));
    limit.rlim_cur = limit.rlim_max > 1 << 20 ? 1 << 20 : limit.rlim_max;
    setrlimit(RLIMIT_NOFILE, &limit);
    getrlimit(RLIMIT_NOFILE, &limit);
    if (limit.rlim_cur < RESERVE + 16)
        refuse(1, "descriptors", "at least 80 are needed: raise the limit (ulimit -n)");
    unsigned left = (unsigned)limit.rlim_cur - RESERVE;
    many.most = many.most < left / 2 ? many.most : left / 2;
    many.handles = many.handles < (left - many.most) / 3 ? many.handles : (left - many.most) / 3;
    if (many.handles > CONNECTIONS && root_is_database())
        many.handles = CONNECTIONS;
}

/* The socket that systemd listens at for this process, or -1. */
static int given_door(void) {
    const char *pid = getenv("LISTEN_PID"), *given = getenv("LISTEN_FDS");
    int listens = 0;
    socklen_t size = sizeof listens;
    if (!pid || !given || strtol(pid, NULL, 10) != getpid())
        return -1;
    if (strcmp(given, "1") || getsockopt(3, SOL_SOCKET, SO_ACCEPTCONN, &listens, &size) || !listens)
        refuse(1, "LISTEN_FDS", "systemd has to pass one listening socket");
    fcntl(3, F_SETFD, FD_CLOEXEC);
    is_given = true;
    return 3;
}

/* Holds the path of the socket for this process, by a file beside it. */
static void hold_path(void) {
    char path[4200];
    if ((size_t)snprintf(path, sizeof path, "%s.lock", many.socket) >= sizeof path)
        refuse(1, many.socket, "the path is too long");
    int held = open(path, O_RDWR | O_CREAT | O_NOFOLLOW | O_CLOEXEC, 0600);
    if (held < 0)
        refuse(1, path, strerror(errno));
    if (flock(held, LOCK_EX | LOCK_NB))
        refuse(16, many.socket, "another daemon is listening there");
}

static int own_door(void) {
    struct sockaddr_un path = {.sun_family = AF_UNIX};
    struct stat there;
    if (strlen(many.socket) >= sizeof path.sun_path)
        refuse(1, many.socket, "the path is too long: a socket's path has at most 107 bytes");
    strcpy(path.sun_path, many.socket);
    hold_path();
    if (!lstat(many.socket, &there)) {
        if (!S_ISSOCK(there.st_mode))
            refuse(1, many.socket, "it exists and isn't a socket");
        int other = socket(AF_UNIX, SOCK_STREAM | SOCK_CLOEXEC | SOCK_NONBLOCK, 0);
        if (!connect(other, (struct sockaddr *)&path, sizeof path) || errno == EAGAIN)
            refuse(16, many.socket, "another daemon is listening there");
        close(other);
        unlink(many.socket);
    }
    int door = socket(AF_UNIX, SOCK_STREAM | SOCK_CLOEXEC, 0);
    mode_t before = umask(0177);
    if (door < 0 || fchmod(door, 0600) || bind(door, (struct sockaddr *)&path, sizeof path))
        refuse(1, many.socket, strerror(errno));
    umask(before);
    if (many.group >= 0 && (chown(many.socket, (uid_t)-1, (gid_t)many.group) || chmod(many.socket, 0660)))
        refuse(1, many.socket, strerror(errno));
    if (listen(door, 4096))
        refuse(1, many.socket, strerror(errno));
    lstat(many.socket, &door_place);
    return door;
}

static void shut_door(void) {
    struct stat there;
    if (!is_given && !lstat(many.socket, &there) && there.st_ino == door_place.st_ino && there.st_dev == door_place.st_dev)
        unlink(many.socket);
}

/* ---- systemd */

static void notify(const char *text) {
    const char *path = getenv("NOTIFY_SOCKET");
    struct sockaddr_un to = {.sun_family = AF_UNIX};
    if (!path || strlen(path) >= sizeof to.sun_path)
        return;
    strcpy(to.sun_path, path);
    if (*path == '@')
        to.sun_path[0] = 0;
    int sock = socket(AF_UNIX, SOCK_DGRAM | SOCK_CLOEXEC, 0);
    if (sock >= 0) {
        sendto(sock, text, strlen(text), MSG_NOSIGNAL, (struct sockaddr *)&to, (socklen_t)(offsetof(struct sockaddr_un, sun_path) + strlen(path)));
        close(sock);
    }
}

/* ---- threads */

static void *work(void *unused) {
    (void)unused;
    for (;;) {
        struct epoll_event event[EVENTS];
        if (epoll_wait(many_epoll, event, EVENTS, -1) == 1)
            clients_event(event[0].data.ptr);
    }
    return NULL;
}

static void *tell_numbers(void *door) {
    numbers_answer((int)(intptr_t)door);
    return NULL;
}

static void begin(void *(*what)(void *), void *with) {
    pthread_t thread;
    pthread_attr_t how;
    pthread_attr_init(&how);
    pthread_attr_setstacksize(&how, STACK);
    pthread_attr_setdetachstate(&how, PTHREAD_CREATE_DETACHED);
    int why = pthread_create(&thread, &how, what, with);
    if (why)
        refuse(1, "threads", strerror(why));
    pthread_attr_destroy(&how);
}

/* ---- the end */

/* Each client is told, and what is under way comes out: all of it, unless a second signal comes or it takes too long. */
static void stop(const sigset_t *signals) {
    long long began = now(), slow = (long long)((many.slow < LAST ? LAST : many.slow) * 1e9);
    notify("STOPPING=1");
    shut_door();
    atomic_store(&many_stops, true);
    clients_stop();
    struct timespec pause = {.tv_nsec = 20000000};
    while (clients_count() && now() - began < (atomic_load(&lines_under_way) ? slow : LAST * 1000000000LL)) {
        int came = sigtimedwait(signals, NULL, &pause);
        if (came == SIGTERM || came == SIGINT)
            break;
    }
    fflush(NULL);
    _exit(atomic_load(&lines_under_way) ? 137 : 0);
}

/* What SIGHUP asks for. */
static void anew(void) {
    char text[64];
    snprintf(text, sizeof text, "RELOADING=1\nMONOTONIC_USEC=%lld", now() / 1000);
    notify(text);
    slow_log_open();
    rules_read();
    notify("READY=1");
}

static void live(const sigset_t *signals) {
    struct timespec second = {.tv_sec = 1};
    long long used = now();
    for (;;) {
        int came = sigtimedwait(signals, NULL, &second);
        if (came == SIGHUP)
            anew();
        else if (came == SIGTERM || came == SIGINT)
            stop(signals);
        clients_tick();
        logs_trim();
        if (clients_count())
            used = now();
        else if (many.idle >= 0 && (double)(now() - used) >= many.idle * 1e9)
            stop(signals);
    }
}

int main(int count, char **words) {
    fill_low();
    read_words(count, words);
    sigset_t signals;
    sigemptyset(&signals);
    for (const int *at = (const int[]){SIGTERM, SIGINT, SIGHUP, 0}; *at; at++)
        sigaddset(&signals, *at);
    pthread_sigmask(SIG_BLOCK, &signals, NULL);
    signal(SIGPIPE, SIG_IGN);
    signal(SIGXFSZ, SIG_IGN);
    if (root_is_database() && !database_is_built())
        refuse(1, "--root", "this server was built without PostgreSQL: use segdagd-many-postgres");
    if (!root_is_database() && (many_root = open(many.root, O_PATH | O_DIRECTORY | O_CLOEXEC)) < 0)
        refuse(9, many.root, strerror(errno));
    if (!rules_read())
        exit(2);
    share_descriptors();
    many_door = given_door();
    if (many_door < 0 && !many.socket)
        refuse(2, "--socket", "the path is missing, and systemd passed no socket");
    if (many_door < 0)
        many_door = own_door();
    fcntl(many_door, F_SETFL, fcntl(many_door, F_GETFL) | O_NONBLOCK);
    slow_log_open();
    many_epoll = epoll_create1(EPOLL_CLOEXEC);
    many_ready = eventfd(0, EFD_CLOEXEC | EFD_NONBLOCK | EFD_SEMAPHORE);
    struct epoll_event event = {.events = EPOLLIN | EPOLLONESHOT, .data.ptr = &many_door}, ready = {.events = EPOLLIN, .data.ptr = &many_ready};
    if (many_epoll < 0 || epoll_ctl(many_epoll, EPOLL_CTL_ADD, many_door, &event) || epoll_ctl(many_epoll, EPOLL_CTL_ADD, many_ready, &ready))
        refuse(1, "epoll", strerror(errno));
    int numbers = many.metrics ? numbers_open() : -1;
    if (many.metrics && numbers < 0)
        refuse(1, many.metrics, strerror(errno));
    if (numbers >= 0)
        begin(tell_numbers, (void *)(intptr_t)numbers);
    for (unsigned i = 0; i < many.threads; i++)
        begin(work, NULL);
    notify("READY=1");
    live(&signals);
}
