/* A client of segdagd: its socket, and bytes both ways. While lines wait to be sent, replies are read, so that neither side waits for the other. */
#define _GNU_SOURCE
#include "segdag_client.h"
#include <errno.h>
#include <fcntl.h>
#include <poll.h>
#include <stdio.h>
#include <stdlib.h>
#include <string.h>
#include <sys/socket.h>
#include <sys/un.h>
#include <time.h>
#include <unistd.h>

#define PIECE 65536

/* Bytes of which those in front of `at` are done. */
typedef struct bytes {
    char *bytes;
    size_t at, size, room;
} bytes;

struct segdag_client {
    int fd, patience, ended;
    size_t waiting; /* lines whose replies weren't taken */
    size_t taken;   /* bytes of the reply that was told last */
    size_t sought;  /* behind `at`, up to where no last line begins */
    bytes out, in;
};

/* Makes room for so many more bytes. */
static bool has_room(bytes *of, size_t more) {
    if (of->at) {
        memmove(of->bytes, of->bytes + of->at, of->size - of->at);
        of->size -= of->at;
        of->at = 0;
    }
    if (of->room - of->size >= more)
        return true;
    size_t room = of->size + more > of->room + of->room / 2 ? of->size + more : of->room + of->room / 2;
    char *grown = realloc(of->bytes, room);
    if (!grown)
        return false;
    of->bytes = grown;
    of->room = room;
    return true;
}

/* ---- connecting */

/* A longer path than the system takes goes by way of its folder. */
static bool place_of(const char *path, int *folder, struct sockaddr_un *place) {
    *place = (struct sockaddr_un){.sun_family = AF_UNIX};
    *folder = -1;
    if (strlen(path) < sizeof place->sun_path) {
        strcpy(place->sun_path, path);
        return true;
    }
    const char *slash = strrchr(path, '/'), *base = slash ? slash + 1 : path;
    char *above = slash ? strndup(path, (size_t)(slash - path) + 1) : NULL;
    if (above)
        *folder = open(above, O_PATH | O_DIRECTORY | O_CLOEXEC);
    free(above);
    if (*folder < 0)
        return false;
    errno = ENAMETOOLONG;
    snprintf(place->sun_path, sizeof place->sun_path, "/proc/self/fd/%d/%.80s", *folder, base);
    return strlen(base) <= 80;
}

/* A socket that is none of the three standard descriptors: a process that closed its own may write there all the same. */
static int high_socket(void) {
    int low = socket(AF_UNIX, SOCK_STREAM | SOCK_CLOEXEC | SOCK_NONBLOCK, 0);
    if (low < 0 || low > STDERR_FILENO)
        return low;
    int fd = fcntl(low, F_DUPFD_CLOEXEC, STDERR_FILENO + 1), why = errno;
    close(low);
    errno = why;
    return fd;
}

/* Where as many wait at the door as may the system refuses at once: it is tried for as long as there is patience. */
static int connected(const char *path, int patience) {
    struct sockaddr_un place;
    int folder, fd = -1, tries = patience < 0 ? -1 : patience / 20;
    if (place_of(path, &folder, &place))
        fd = high_socket();
    while (fd >= 0 && connect(fd, (struct sockaddr *)&place, sizeof place)) {
        int why = errno;
        if (why == EAGAIN && tries-- != 0) {
            nanosleep(&(struct timespec){.tv_nsec = 20000000}, NULL);
            continue;
        }
        close(fd);
        fd = -1;
        errno = why;
    }
    int why = errno;
    if (folder >= 0)
        close(folder);
    errno = why;
    return fd;
}

static segdag_client_end use(segdag_client *client, const char *log) {
    segdag_client_reply reply;
    char *line;
    int size = asprintf(&line, "use %s", log);
    if (size < 0)
        return SEGDAG_CLIENT_MEMORY;
    segdag_client_end end = segdag_client_ask(client, line, (size_t)size, &reply);
    free(line);
    return end == SEGDAG_CLIENT_OK && !reply.is_ok ? SEGDAG_CLIENT_REFUSED : end;
}

segdag_client_end segdag_client_open(const char *path, const char *log, int patience, segdag_client **client) {
    *client = NULL;
    segdag_client *made = calloc(1, sizeof *made);
    if (!made)
        return SEGDAG_CLIENT_MEMORY;
    made->patience = patience < 0 ? -1 : patience;
    made->fd = connected(path, made->patience);
    segdag_client_end end = made->fd < 0 ? SEGDAG_CLIENT_LOST : log ? use(made, log) : SEGDAG_CLIENT_OK;
    if (end == SEGDAG_CLIENT_OK) {
        *client = made;
        return end;
    }
    int why = errno;
    segdag_client_close(made);
    errno = why;
    return end;
}

void segdag_client_close(segdag_client *client) {
    if (!client)
        return;
    if (client->fd >= 0)
        close(client->fd);
    free(client->out.bytes);
    free(client->in.bytes);
    free(client);
}

int segdag_client_ended(const segdag_client *client) {
    return client->ended;
}

/* ---- lines and replies */

segdag_client_end segdag_client_put(segdag_client *client, const char *line, size_t size) {
    if (size == 0 || *line == '#' || *line == '\r' || memchr(line, '\n', size))
        return SEGDAG_CLIENT_ARGUMENT;
    if (!has_room(&client->out, size + 1))
        return SEGDAG_CLIENT_MEMORY;
    memcpy(client->out.bytes + client->out.size, line, size);
    client->out.bytes[client->out.size + size] = '\n';
    client->out.size += size + 1;
    client->waiting++;
    return SEGDAG_CLIENT_OK;
}

static segdag_client_end lost(int why) {
    errno = why;
    return SEGDAG_CLIENT_LOST;
}

/* Reads what came. What the daemon said before it ended is still read where it takes no more. */
static segdag_client_end hear(segdag_client *client) {
    if (!has_room(&client->in, PIECE))
        return SEGDAG_CLIENT_MEMORY;
    ssize_t came = recv(client->fd, client->in.bytes + client->in.size, PIECE, MSG_DONTWAIT);
    if (came > 0)
        client->in.size += (size_t)came;
    if (came < 0 && (errno == EAGAIN || errno == EINTR))
        return SEGDAG_CLIENT_OK;
    return came > 0 ? SEGDAG_CLIENT_OK : lost(came < 0 ? errno : 0);
}

/* Sends or reads some bytes, whichever can be done first. */
static segdag_client_end move(segdag_client *client) {
    struct pollfd on = {.fd = client->fd, .events = (short)(POLLIN | (client->out.at < client->out.size ? POLLOUT : 0))};
    int count = poll(&on, 1, client->patience);
    if (count < 0)
        return errno == EINTR ? SEGDAG_CLIENT_OK : lost(errno);
    if (count == 0)
        return SEGDAG_CLIENT_SILENT;
    if (on.revents & ~POLLOUT)
        return hear(client);
    ssize_t sent = send(client->fd, client->out.bytes + client->out.at, client->out.size - client->out.at, MSG_NOSIGNAL | MSG_DONTWAIT);
    if (sent >= 0)
        client->out.at += (size_t)sent;
    else if (errno != EAGAIN && errno != EINTR)
        client->out.at = client->out.size;
    return SEGDAG_CLIENT_OK;
}

/* Whether a whole reply is there: no line of it but the last begins with `ok` or `err`. */
static bool find_reply(segdag_client *client, size_t *last, size_t *end) {
    char *bytes = client->in.bytes;
    for (size_t at = client->in.at + client->sought; at < client->in.size;) {
        const char *feed = memchr(bytes + at, '\n', client->in.size - at);
        if (!feed)
            return false;
        *end = (size_t)(feed - bytes);
        if (!strncmp(bytes + at, "ok", 2) || !strncmp(bytes + at, "err", 3)) {
            *last = at;
            return true;
        }
        at = *end + 1;
        client->sought = at - client->in.at;
    }
    return false;
}

segdag_client_end segdag_client_take(segdag_client *client, segdag_client_reply *reply) {
    size_t last, end;
    if (!client->waiting)
        return SEGDAG_CLIENT_ARGUMENT;
    client->in.at += client->taken;
    client->taken = 0;
    while (!find_reply(client, &last, &end)) {
        segdag_client_end moved = move(client);
        if (moved)
            return moved;
    }
    char *bytes = client->in.bytes;
    bytes[end] = 0;
    *reply = (segdag_client_reply){bytes[last] == 'o', last > client->in.at ? bytes + client->in.at : NULL, last - client->in.at, bytes + last, end - last};
    client->taken = end + 1 - client->in.at;
    client->sought = 0;
    client->waiting--;
    return sscanf(reply->last, "err ended %d", &client->ended) == 1 ? SEGDAG_CLIENT_ENDED : SEGDAG_CLIENT_OK;
}

segdag_client_end segdag_client_ask(segdag_client *client, const char *line, size_t size, segdag_client_reply *reply) {
    segdag_client_end end = segdag_client_put(client, line, size);
    while (end == SEGDAG_CLIENT_OK && client->waiting > 1)
        end = segdag_client_take(client, reply);
    return end ? end : segdag_client_take(client, reply);
}
