/* Numbers: in the text that Prometheus reads, for one client, and a line for each slow question. */
#include "many.h"
#include <arpa/inet.h>
#include <errno.h>
#include <fcntl.h>
#include <netinet/in.h>
#include <stdarg.h>
#include <stdio.h>
#include <stdlib.h>
#include <string.h>
#include <sys/socket.h>
#include <sys/un.h>
#include <time.h>
#include <unistd.h>

static const char *const verbs[] = {"add", "clone", "count", "discard", "drop", "flush", "id", "levels", "mirrors", "name", "pull", "query", "reload", "status", "strip", "other"};
static const char *const refusals[] = {"answer", "conflict", "differs", "empty", "full", "line", "lost", "master", "memory", "mismatch", "no-remote", "not-empty",
                                       "pending", "remote", "rights", "syntax", "twice", "unknown", "other"};
static const char *const names[N_COUNT] = {"lines", "received_bytes", "sent_bytes", "connections", "uses", "loads", "closed_stores", "changes", "lent_sessions",
                                           "cut_replies", "slow_lines"};
static const double bounds[] = {0.0001, 0.0003, 0.001, 0.003, 0.01, 0.03, 0.1, 0.3, 1, 3, 10};

#define COUNT(list) (sizeof(list) / sizeof *(list))

static atomic_ullong numbers[N_COUNT], by_verb[COUNT(verbs)], by_refusal[COUNT(refusals)], by_time[COUNT(bounds) + 1], time_taken;
static pthread_mutex_t slow_lock = PTHREAD_MUTEX_INITIALIZER;
static FILE *slow_file;

void number_add(number which, uint64_t count) {
    atomic_fetch_add(&numbers[which], count);
}

/* The place of the word that stands in front, or the last one's. */
static size_t place_of(const char *text, size_t size, const char *const *words, size_t count) {
    for (size_t i = 0; i + 1 < count; i++) {
        size_t word = strlen(words[i]);
        if (size >= word && !memcmp(text, words[i], word) && (size == word || text[word] == ' ' || text[word] == '\n'))
            return i;
    }
    return count - 1;
}

/* ---- slow lines */

/* Opens the file of slow lines anew, as behind its being moved. */
void slow_log_open(void) {
    pthread_mutex_lock(&slow_lock);
    if (slow_file && slow_file != stderr)
        fclose(slow_file);
    slow_file = many.log ? fopen(many.log, "ae") : stderr;
    if (!slow_file) {
        say("%s: %s", many.log, strerror(errno));
        slow_file = stderr;
    }
    pthread_mutex_unlock(&slow_lock);
}

/* Text in quotes, of which each byte that isn't plain is told by its number. */
static void put_quoted(const char *text, size_t size) {
    fputc('"', slow_file);
    for (size_t i = 0; i < size && i < 400; i++) {
        unsigned char byte = (unsigned char)text[i];
        if (byte < 32 || byte > 126 || byte == '"' || byte == '\\')
            fprintf(slow_file, "\\u%04x", byte);
        else
            fputc(byte, slow_file);
    }
    fputc('"', slow_file);
}

static void tell_slow(const client *one, const char *line, size_t size, const char *reply, size_t reply_size, long long took) {
    struct timespec at;
    char when[32];
    struct tm parts;
    clock_gettime(CLOCK_REALTIME, &at);
    gmtime_r(&at.tv_sec, &parts);
    strftime(when, sizeof when, "%Y-%m-%dT%H:%M:%S", &parts);
    pthread_mutex_lock(&slow_lock);
    fprintf(slow_file, many.json ? "{\"time\": \"%s.%03ldZ\", \"milliseconds\": %.1f, \"client\": %llu, \"log\": " : "%s.%03ldZ %.1f ms, client %llu, log ", when,
            at.tv_nsec / 1000000, (double)took / 1e6, (unsigned long long)one->number);
    put_quoted(one->log->name, strlen(one->log->name));
    fputs(many.json ? ", \"line\": " : ", line ", slow_file);
    put_quoted(line, size);
    fputs(many.json ? ", \"reply\": " : ", reply ", slow_file);
    put_quoted(reply, reply_size && reply[reply_size - 1] == '\n' ? reply_size - 1 : reply_size);
    fputs(many.json ? "}\n" : "\n", slow_file);
    fflush(slow_file);
    pthread_mutex_unlock(&slow_lock);
}

void line_told(client *one, const char *line, size_t size, const char *reply, size_t reply_size, long long took) {
    bool is_refused = reply_size > 4 && !memcmp(reply, "err ", 4);
    size_t slot = 0;
    while (slot < COUNT(bounds) && (double)took > bounds[slot] * 1e9)
        slot++;
    one->told.lines++;
    one->told.refused += is_refused;
    one->told.nanoseconds += (uint64_t)took;
    number_add(N_LINES_IN, 1);
    atomic_fetch_add(&by_verb[place_of(line, size, verbs, COUNT(verbs))], 1);
    atomic_fetch_add(&by_time[slot], 1);
    atomic_fetch_add(&time_taken, (unsigned long long)took);
    if (is_refused)
        atomic_fetch_add(&by_refusal[place_of(reply + 4, reply_size - 4, refusals, COUNT(refusals))], 1);
    if (many.slow_log >= 0 && (double)took >= many.slow_log * 1e6) {
        number_add(N_SLOW, 1);
        tell_slow(one, line, size, reply, reply_size, took);
    }
}

/* ---- the text */

static void put(char *text, size_t room, size_t *size, const char *format, ...) __attribute__((format(printf, 4, 5)));

static void put(char *text, size_t room, size_t *size, const char *format, ...) {
    va_list words;
    va_start(words, format);
    int more = vsnprintf(text + *size, room - *size, format, words);
    va_end(words);
    if (more > 0 && (size_t)more < room - *size)
        *size += (size_t)more;
}

static unsigned long long resident(void) {
    unsigned long long pages = 0;
    FILE *file = fopen("/proc/self/statm", "re");
    if (file) {
        if (fscanf(file, "%*u %llu", &pages) != 1)
            pages = 0;
        fclose(file);
    }
    return pages * (unsigned long long)sysconf(_SC_PAGESIZE);
}

static size_t put_all(char *text, size_t room) {
    size_t size = 0;
    for (size_t i = 0; i < N_COUNT; i++)
        put(text, room, &size, "# TYPE segdag_%s_total counter\nsegdag_%s_total %llu\n", names[i], names[i], atomic_load(&numbers[i]));
    put(text, room, &size, "# TYPE segdag_verb_lines_total counter\n");
    for (size_t i = 0; i < COUNT(verbs); i++)
        put(text, room, &size, "segdag_verb_lines_total{verb=\"%s\"} %llu\n", verbs[i], atomic_load(&by_verb[i]));
    put(text, room, &size, "# TYPE segdag_refused_lines_total counter\n");
    for (size_t i = 0; i < COUNT(refusals); i++)
        put(text, room, &size, "segdag_refused_lines_total{refusal=\"%s\"} %llu\n", refusals[i], atomic_load(&by_refusal[i]));
    put(text, room, &size, "# TYPE segdag_line_seconds histogram\n");
    unsigned long long below = 0;
    for (size_t i = 0; i < COUNT(bounds); i++)
        put(text, room, &size, "segdag_line_seconds_bucket{le=\"%g\"} %llu\n", bounds[i], below += atomic_load(&by_time[i]));
    below += atomic_load(&by_time[COUNT(bounds)]);
    put(text, room, &size, "segdag_line_seconds_bucket{le=\"+Inf\"} %llu\nsegdag_line_seconds_sum %.6f\nsegdag_line_seconds_count %llu\n", below,
        (double)atomic_load(&time_taken) / 1e9, below);
    put(text, room, &size, "# TYPE segdag_clients gauge\nsegdag_clients %u\n", clients_count());
    put(text, room, &size, "# TYPE segdag_open_stores gauge\nsegdag_open_stores %zu\n", atomic_load(&open_stores));
    put(text, room, &size, "# TYPE segdag_open_bytes gauge\nsegdag_open_bytes %zu\n", atomic_load(&open_bytes));
    put(text, room, &size, "# TYPE segdag_follower_lag_bytes gauge\nsegdag_follower_lag_bytes %llu\n", (unsigned long long)logs_lag());
    put(text, room, &size, "# TYPE segdag_unsent_bytes gauge\nsegdag_unsent_bytes %zu\n", atomic_load(&reply_bytes));
    put(text, room, &size, "# TYPE segdag_resident_bytes gauge\nsegdag_resident_bytes %llu\n", resident());
    return size;
}

/* ---- who asks for it */

/* Removes a socket that nobody listens at; false where somebody does. */
static bool take_place(const struct sockaddr_un *path) {
    struct stat there;
    if (lstat(path->sun_path, &there) || !S_ISSOCK(there.st_mode))
        return true;
    int other = socket(AF_UNIX, SOCK_STREAM | SOCK_CLOEXEC | SOCK_NONBLOCK, 0);
    bool is_taken = other >= 0 && (!connect(other, (const struct sockaddr *)path, sizeof *path) || errno == EAGAIN);
    if (other >= 0)
        close(other);
    if (!is_taken)
        unlink(path->sun_path);
    return !is_taken;
}

/* A door at a path, or at a port of this machine alone; -1 and errno. */
int numbers_open(void) {
    char *end;
    unsigned long port = strtoul(many.metrics, &end, 10);
    struct sockaddr_un path = {.sun_family = AF_UNIX};
    struct sockaddr_in here = {.sin_family = AF_INET, .sin_port = htons((uint16_t)port), .sin_addr.s_addr = htonl(INADDR_LOOPBACK)};
    bool is_port = *end == 0 && port > 0 && port < 65536;
    if (!is_port && strlen(many.metrics) >= sizeof path.sun_path) {
        errno = ENAMETOOLONG;
        return -1;
    }
    strncpy(path.sun_path, many.metrics, sizeof path.sun_path - 1);
    int door = socket(is_port ? AF_INET : AF_UNIX, SOCK_STREAM | SOCK_CLOEXEC, 0), yes = 1;
    if (door < 0)
        return -1;
    if (!is_port && !take_place(&path)) {
        close(door);
        errno = EADDRINUSE;
        return -1;
    }
    setsockopt(door, SOL_SOCKET, SO_REUSEADDR, &yes, sizeof yes);
    if (bind(door, is_port ? (struct sockaddr *)&here : (struct sockaddr *)&path, is_port ? sizeof here : sizeof path) || listen(door, 16)) {
        close(door);
        return -1;
    }
    return door;
}

/* Answers those who ask, one after another, each within a second. */
void numbers_answer(int door) {
    static char text[1 << 16], asked[1 << 12];
    for (;;) {
        int one = accept4(door, NULL, NULL, SOCK_CLOEXEC);
        if (one < 0 && (errno == EINVAL || errno == EBADF))
            return;
        if (one < 0) {
            usleep(100000);
            continue;
        }
        struct timeval second = {.tv_sec = 1};
        setsockopt(one, SOL_SOCKET, SO_RCVTIMEO, &second, sizeof second);
        setsockopt(one, SOL_SOCKET, SO_SNDTIMEO, &second, sizeof second);
        if (recv(one, asked, sizeof asked, 0) > 0) {
            char head[160];
            size_t size = put_all(text, sizeof text);
            int front = snprintf(head, sizeof head, "HTTP/1.0 200 OK\r\nContent-Type: text/plain; version=0.0.4\r\nContent-Length: %zu\r\n\r\n", size);
            if (send(one, head, (size_t)front, MSG_NOSIGNAL | MSG_MORE) == front)
                send(one, text, size, MSG_NOSIGNAL);
        }
        close(one);
    }
}
