/* What the library's calls take over a log, in processor time: clib LOG FIRST SECOND..., where each pair of names is of its commits. */
#define _GNU_SOURCE
#include "segdag.h"
#include <stdio.h>
#include <stdlib.h>
#include <string.h>
#include <time.h>

static double now(void) {
    struct timespec at;
    clock_gettime(CLOCK_PROCESS_CPUTIME_ID, &at);
    return (double)at.tv_sec + (double)at.tv_nsec / 1e9;
}

static void read_id(const char *text, segdag_id *id) {
    for (int i = 0; i < SEGDAG_ID_SIZE; i++)
        sscanf(text + 2 * i, "%2hhx", &id->id[i]);
}

/* Asks for at least a fifth of a second, and prints what one question took, in microseconds. */
#define TOLD(what, question)                                                    \
    do {                                                                        \
        double began = now();                                                   \
        int times = 0, failed = 0;                                              \
        do {                                                                    \
            for (int turn = 0; turn < 20; turn++)                               \
                failed |= (question) != SEGDAG_OK;                              \
            times += 20;                                                        \
        } while (now() - began < 0.2);                                          \
        printf("%-24s %.2f%s\n", what, (now() - began) / times * 1e6, failed ? " failed" : ""); \
    } while (0)

static void ask(segdag_store *store, const char *first, const char *second) {
    segdag_ids bases = {0};
    segdag_text reply = {0};
    segdag_pair pair;
    segdag_distance distance = {0};
    size_t done;
    uint64_t number;
    bool is;
    char line[128];
    int size = snprintf(line, sizeof line, "0 id %s", first);
    read_id(first, &pair.left);
    read_id(second, &pair.right);
    TOLD("is-ancestor", segdag_commit_is_ancestor(store, 0, &pair.left, &pair.right, &is));
    TOLD("merge bases", segdag_commit_merge_bases(store, 0, &pair.left, &pair.right, &bases));
    TOLD("ahead and behind", segdag_commit_ahead_behind(store, 0, &pair, 1, &distance, &done));
    printf("%-24s %llu %llu\n", "they are", (unsigned long long)distance.ahead, (unsigned long long)distance.behind);
    TOLD("id", segdag_commit_number(store, 0, &pair.left, &number));
    TOLD("id, as a line", segdag_store_line(store, line, (size_t)size, &reply));
    segdag_ids_free(&bases);
    segdag_text_free(&reply);
}

int main(int count, char **words) {
    segdag_store *store = NULL;
    double began = now();
    if (count < 4 || segdag_store_open(words[1], NULL, &store))
        return 1;
    printf("%-24s %.2f\n", "open", (now() - began) * 1e6);
    for (int i = 2; i + 1 < count; i += 2)
        ask(store, words[i], words[i + 1]);
    segdag_store_close(store);
    return 0;
}
