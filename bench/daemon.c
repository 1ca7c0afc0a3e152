/* A client in C for bench/daemon_many.py, over bindings/client: bench_daemon SOCKET LOG FILE AHEAD.
   It uses the log, puts `ready`, waits for a line, asks the file's lines with so many sent ahead, and puts microseconds: all together; and where none
   is sent ahead, at the median and the 99th of a hundred. */
#define _GNU_SOURCE
#include "../bindings/client/segdag_client.h"
#include <stdio.h>
#include <stdlib.h>
#include <string.h>
#include <time.h>

static double now(void) {
    struct timespec at;
    clock_gettime(CLOCK_MONOTONIC, &at);
    return (double)at.tv_sec * 1e6 + (double)at.tv_nsec / 1e3;
}

static void must(segdag_client_end end, const segdag_client_reply *reply) {
    if (end == SEGDAG_CLIENT_OK && (!reply || reply->is_ok))
        return;
    fprintf(stderr, "bench_daemon: %d, %s\n", (int)end, end == SEGDAG_CLIENT_OK ? reply->last : "");
    exit(1);
}

static int in_order(const void *a, const void *b) {
    double one = *(const double *)a, other = *(const double *)b;
    return (one > other) - (one < other);
}

int main(int count, char **words) {
    segdag_client *client;
    segdag_client_reply reply;
    char *line = NULL;
    size_t room = 0, waiting = 0, lines = 0;
    FILE *file = count == 5 ? fopen(words[3], "r") : NULL;
    if (!file)
        return 2;
    size_t ahead = strtoul(words[4], NULL, 10);
    double *took = calloc(1 << 24, sizeof *took);
    must(segdag_client_open(words[1], strcmp(words[2], "-") ? words[2] : NULL, -1, &client), NULL);
    must(segdag_client_ask(client, "status", 6, &reply), &reply);
    puts("ready");
    fflush(stdout);
    if (!took || getchar() == EOF)
        return 2;
    double began = now();
    for (ssize_t size; (size = getline(&line, &room, file)) > 0;) {
        double asked = now();
        must(segdag_client_put(client, line, (size_t)size - 1), NULL);
        for (waiting++; waiting > ahead; waiting--)
            must(segdag_client_take(client, &reply), &reply);
        if (lines < 1 << 24)
            took[lines++] = now() - asked;
    }
    for (; waiting > 0; waiting--)
        must(segdag_client_take(client, &reply), &reply);
    double whole = now() - began;
    qsort(took, lines, sizeof *took, in_order);
    printf("%.0f %.1f %.1f\n", whole, lines && !ahead ? took[lines / 2] : 0, lines && !ahead ? took[lines * 99 / 100] : 0);
    segdag_client_close(client);
    return 0;
}
