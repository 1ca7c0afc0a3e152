/* Connections: their bytes in and out. One thread at a time has the turn of a client; many take events. */
#include "many.h"
#include <errno.h>
#include <signal.h>
#include <stdio.h>
#include <stdlib.h>
#include <string.h>
#include <sys/epoll.h>
#include <sys/socket.h>
#include <unistd.h>

#define KEPT 4096 /* bytes of room that a client keeps that needs none */
#define SILENT 1000000000LL

static pthread_mutex_t lock = PTHREAD_MUTEX_INITIALIZER; /* of the lists */
static client *oldest, *newest, *spare;
static unsigned count;
static uint64_t numbers;
static bool is_shut;
static pthread_mutex_t ready_lock = PTHREAD_MUTEX_INITIALIZER;
static client *first_ready, *last_ready;
atomic_size_t reply_bytes;

/* ---- bytes */

bool bytes_put(bytes *to, const char *from, size_t size) {
    if (to->at && to->room - to->size < size) {
        memmove(to->bytes, to->bytes + to->at, to->size - to->at);
        to->size -= to->at;
        to->at = 0;
    }
    if (to->room - to->size < size) {
        size_t room = to->size + size > to->room + to->room / 2 ? to->size + size : to->room + to->room / 2;
        char *grown = realloc(to->bytes, room);
        if (!grown)
            return false;
        to->bytes = grown;
        to->room = room;
    }
    memcpy(to->bytes + to->size, from, size);
    to->size += size;
    return true;
}

/* Lets go of what is done, and of room that isn't needed. */
static void bytes_settle(bytes *of) {
    if (of->at < of->size)
        return;
    of->at = of->size = 0;
    if (of->room > KEPT) {
        free(of->bytes);
        *of = (bytes){0};
    }
}

/* ---- replies */

/* So many bytes of its replies were put, or taken. */
static void note_unsent(client *one, size_t put, size_t taken) {
    atomic_fetch_add(&one->unsent, put - taken);
    atomic_fetch_add(&reply_bytes, put - taken);
}

/* Ends the replies of a client, of which these bytes and a last line are still sent. */
static void cut(client *one, const char *line) {
    size_t left = one->out.size - one->out.at, kept = left < PIECE ? left : PIECE;
    while (kept && one->out.bytes[one->out.at + kept - 1] != '\n')
        kept--;
    note_unsent(one, 0, left - kept);
    one->out.size = one->out.at + kept;
    size_t size = strlen(line);
    if (!kept && left && bytes_put(&one->out, "\n", 1))
        note_unsent(one, 1, 0);
    if (bytes_put(&one->out, line, size))
        note_unsent(one, size, 0);
    one->is_told = true;
}

/* Where there is no room for replies the client gets no more for which they wait longest. */
static void make_room(client *whose) {
    char line[32];
    snprintf(line, sizeof line, "err ended %d\n", NO_ROOM);
    while (atomic_load(&reply_bytes) > many.replies) {
        client *longest = whose;
        pthread_mutex_lock(&lock);
        for (client *at = oldest; at; at = at->behind)
            if (at != whose && atomic_load(&at->unsent) > PIECE + KEPT && atomic_load(&at->moved) < atomic_load(&longest->moved))
                longest = at;
        bool is_had = longest == whose || !pthread_mutex_trylock(&longest->turn);
        if (is_had && longest->fd >= 0)
            cut(longest, line);
        if (is_had && longest != whose)
            pthread_mutex_unlock(&longest->turn);
        pthread_mutex_unlock(&lock);
        number_add(N_CUT, is_had);
        if (longest == whose)
            return;
        if (!is_had)
            usleep(1000);
    }
}

void client_put(client *one, const char *text, size_t size) {
    if (one->is_told)
        return;
    if (one->out.at == one->out.size)
        atomic_store(&one->moved, now());
    if (!bytes_put(&one->out, text, size)) {
        char line[32];
        snprintf(line, sizeof line, "err ended %d\n", NO_MEMORY);
        cut(one, line);
        return;
    }
    one->told.out += size;
    note_unsent(one, size, 0);
    if (atomic_load(&reply_bytes) > many.replies)
        make_room(one);
}

void client_tell(client *one, int code) {
    char line[32];
    snprintf(line, sizeof line, "err ended %d\n", code);
    if (!one->is_told)
        client_put(one, line, strlen(line));
    one->is_told = true;
}

/* Sends what the client takes; false where it is gone. */
static bool give(client *one) {
    while (one->out.at < one->out.size) {
        ssize_t sent = send(one->fd, one->out.bytes + one->out.at, one->out.size - one->out.at, MSG_NOSIGNAL | MSG_DONTWAIT);
        if (sent < 0 && errno == EINTR)
            continue;
        if (sent < 0)
            return errno == EAGAIN;
        one->out.at += (size_t)sent;
        note_unsent(one, 0, (size_t)sent);
        atomic_store(&one->moved, now());
        number_add(N_BYTES_OUT, (uint64_t)sent);
    }
    bytes_settle(&one->out);
    return true;
}

/* ---- lines */

/* Keeps of a line that is too long a front that is too long, too. */
static bool take(client *one, const char *piece, size_t size) {
    while (size > 0) {
        const char *end = memchr(piece, '\n', size);
        size_t part = end ? (size_t)(end - piece) + 1 : size;
        const char *last = one->in.size > one->in.at ? memrchr(one->in.bytes + one->in.at, '\n', one->in.size - one->in.at) : NULL;
        size_t open = one->in.size - one->in.at - (last ? (size_t)(last + 1 - one->in.bytes) - one->in.at : 0);
        size_t room = open > LINE + 2 ? 0 : LINE + 2 - open, kept = part < room ? part : room;
        if (!bytes_put(&one->in, piece, kept) || (end && kept < part && !bytes_put(&one->in, "\n", 1)))
            return false;
        piece += part;
        size -= part;
    }
    return true;
}

/* Reads what came, unless so much waits that no more is read; false where the client is gone. */
static bool hear(client *one) {
    char piece[PIECE];
    while (!one->is_over && one->in.size - one->in.at < PIECE) {
        ssize_t came = recv(one->fd, piece, sizeof piece, MSG_DONTWAIT);
        if (came < 0 && errno == EINTR)
            continue;
        if (came < 0)
            return errno == EAGAIN;
        one->is_over = came == 0;
        one->told.in += (uint64_t)came;
        number_add(N_BYTES_IN, (uint64_t)came);
        if (!take(one, piece, (size_t)came))
            return false;
        if (came < (ssize_t)sizeof piece)
            break;
    }
    return true;
}

/* ---- connections */

static void arm(client *one) {
    bool has_replies = one->out.at < one->out.size;
    bool reads = !one->is_over && !one->is_told && one->in.size - one->in.at < PIECE;
    struct epoll_event event = {.events = EPOLLONESHOT | (has_replies ? EPOLLOUT : 0u) | (reads ? EPOLLIN : 0u), .data.ptr = one};
    epoll_ctl(many_epoll, EPOLL_CTL_MOD, one->fd, &event);
}

/* Without an event: a socket that takes no more has none. */
void client_wake(client *one) {
    uint64_t more = 1;
    pthread_mutex_lock(&ready_lock);
    if (!one->is_ready) {
        one->is_ready = true;
        one->next_ready = NULL;
        *(first_ready ? &last_ready->next_ready : &first_ready) = one;
        last_ready = one;
    }
    pthread_mutex_unlock(&ready_lock);
    if (write(many_ready, &more, sizeof more) < 0)
        say("waking: %s", strerror(errno));
}

static client *ready(void) {
    uint64_t one_less;
    if (read(many_ready, &one_less, sizeof one_less) < 0)
        return NULL;
    pthread_mutex_lock(&ready_lock);
    client *one = first_ready;
    if (one) {
        first_ready = one->next_ready;
        one->is_ready = false;
    }
    pthread_mutex_unlock(&ready_lock);
    return one;
}

static void leave(client *one) {
    session_leave(one);
    pthread_mutex_lock(&lock);
    *(one->before ? &one->before->behind : &oldest) = one->behind;
    *(one->behind ? &one->behind->before : &newest) = one->before;
    int fd = one->fd;
    one->fd = -1;
    count--;
    note_unsent(one, 0, one->out.size - one->out.at);
    free(one->in.bytes);
    free(one->out.bytes);
    one->in = one->out = (bytes){0};
    close(fd);
    one->behind = spare;
    spare = one;
    pthread_mutex_unlock(&lock);
    clients_arm_door();
}

/* A client for a connection; NULL where there is no memory. */
static client *made(int fd) {
    pthread_mutex_lock(&lock);
    client *one = spare;
    if (one)
        spare = one->behind;
    else if ((one = calloc(1, sizeof *one)))
        pthread_mutex_init(&one->turn, NULL);
    pthread_mutex_unlock(&lock);
    if (!one)
        return NULL;
    /* An event of who had it before may come late, and finds it as it was or as it is. */
    pthread_mutex_lock(&one->turn);
    pthread_mutex_lock(&lock);
    one->number = ++numbers;
    one->is_over = one->is_told = one->has_rows = one->is_running = one->is_waiting = one->is_new = one->moves = one->has_base = false;
    one->log = NULL;
    one->handle = NULL;
    atomic_store(&one->doom, GOES_ON);
    memset(&one->told, 0, sizeof one->told);
    atomic_store(&one->is_known, false);
    atomic_store(&one->moved, now());
    atomic_store(&one->came, now());
    one->before = newest;
    one->behind = NULL;
    *(newest ? &newest->behind : &oldest) = one;
    newest = one;
    one->fd = fd;
    count++;
    pthread_mutex_unlock(&lock);
    pthread_mutex_unlock(&one->turn);
    return one;
}

void clients_arm_door(void) {
    struct epoll_event event = {.events = EPOLLIN | EPOLLONESHOT, .data.ptr = &many_door};
    pthread_mutex_lock(&lock);
    if (!is_shut && many_door >= 0 && count < many.most)
        epoll_ctl(many_epoll, EPOLL_CTL_MOD, many_door, &event);
    pthread_mutex_unlock(&lock);
}

/* Takes those who wait at the door, as far as there is room. Without descriptors the next look is behind who leaves, or a second. */
static void let_in(void) {
    for (int i = 0; i < 64 && clients_count() < many.most; i++) {
        int fd = accept4(many_door, NULL, NULL, SOCK_CLOEXEC | SOCK_NONBLOCK);
        if (fd < 0 && (errno == EMFILE || errno == ENFILE || errno == ENOMEM || errno == ENOBUFS))
            return;
        if (fd < 0)
            break;
        client *one = made(fd);
        struct epoll_event event = {.events = EPOLLIN | EPOLLONESHOT, .data.ptr = one};
        if (!one)
            close(fd);
        else if (epoll_ctl(many_epoll, EPOLL_CTL_ADD, fd, &event))
            leave(one);
        number_add(N_ACCEPTED, 1);
    }
    clients_arm_door();
}

static bool has_line(const client *one) {
    return one->in.at < one->in.size && memchr(one->in.bytes + one->in.at, '\n', one->in.size - one->in.at);
}

/* Has the turn of the client. */
static void serve(client *one) {
    if (one->fd < 0)
        return;
    bool is_there = give(one) && hear(one);
    step next = GO_ON;
    while (is_there && next == GO_ON) {
        if (atomic_load(&many_stops))
            client_tell(one, ENDED);
        else if (atomic_load(&one->doom) != GOES_ON)
            client_tell(one, atomic_load(&one->doom));
        next = lines_run(one);
        if (one->is_told)
            session_rest(one);
        bytes_settle(&one->in);
        is_there = give(one);
        if (next == DONE && is_there && one->out.at == one->out.size && !one->is_told && has_line(one))
            next = GO_ON;
    }
    bool is_done = one->out.at == one->out.size && (one->is_told || (one->is_over && next == DONE));
    if (!is_there || is_done)
        leave(one);
    else if (next != LATER)
        arm(one);
}

void clients_event(void *of) {
    if (of == &many_door) {
        let_in();
        return;
    }
    client *one = of == &many_ready ? ready() : of;
    if (!one)
        return;
    pthread_mutex_lock(&one->turn);
    serve(one);
    pthread_mutex_unlock(&one->turn);
}

unsigned clients_count(void) {
    pthread_mutex_lock(&lock);
    unsigned found = count;
    pthread_mutex_unlock(&lock);
    return found;
}

/* ---- each second, and the end */

/* Who takes nothing for some time is let go of; and where there is no more room, who has said nothing. */
void clients_tick(void) {
    long long at = now(), slow = at - (long long)(many.slow * 1e9);
    pthread_mutex_lock(&lock);
    bool is_full = count >= many.most, has_room = false;
    for (client *one = oldest; one; one = one->behind) {
        bool is_slow = atomic_load(&one->unsent) && atomic_load(&one->moved) < slow;
        bool is_silent = is_full && !has_room && !atomic_load(&one->is_known) && atomic_load(&one->came) < at - SILENT;
        if (is_slow || is_silent)
            shutdown(one->fd, SHUT_RDWR);
        has_room = has_room || is_silent;
    }
    pthread_mutex_unlock(&lock);
    clients_arm_door();
}

/* Nobody comes in any more, and each is told. */
void clients_stop(void) {
    pthread_mutex_lock(&lock);
    is_shut = true;
    for (client *one = oldest; one; one = one->behind)
        client_wake(one);
    pthread_mutex_unlock(&lock);
}
