/* What followers of one store answer side by side: followers LOG SECONDS. It opens the log and follows it by one thread and by four, each with a
   follower of its own, and by four threads that share one store; each asks drawn questions for so long. It prints how long the opening took, and
   what of it was reading; how many answers came a second, and a second of processor time, which other work of the machine doesn't change much. */
#define _GNU_SOURCE
#include <pthread.h>
#include <segdag.h>
#include <stdatomic.h>
#include <stdio.h>
#include <stdlib.h>
#include <time.h>

#define MOST 4

static atomic_bool is_over;

/* A reader: its store, which may be others', and how much it was answered. */
typedef struct reader {
    pthread_t thread;
    segdag_store *store;
    const segdag_ids *asked;
    unsigned number;
    uint64_t answers;
    double spent; /* of processor time */
} reader;

static double now(clockid_t clock) {
    struct timespec at;
    clock_gettime(clock, &at);
    return (double)at.tv_sec + (double)at.tv_nsec / 1e9;
}

static void stop(const char *what) {
    fprintf(stderr, "followers: %s: %s\n", what, segdag_last_error()->text);
    exit(1);
}

/* Asks for the merge bases of two commits, of which the second comes a drawn way behind the first. */
static void *ask(void *given) {
    reader *own = given;
    segdag_ids bases = SEGDAG_IDS_INIT;
    unsigned seed = own->number + 1;
    while (!is_over) {
        size_t first = (size_t)rand_r(&seed) % own->asked->count, second = (first + (size_t)rand_r(&seed) % 1000) % own->asked->count;
        if (segdag_commit_merge_bases(own->store, own->number, &own->asked->ids[first], &own->asked->ids[second], &bases))
            stop("merge bases");
        own->answers += 1;
    }
    own->spent = now(CLOCK_THREAD_CPUTIME_ID);
    segdag_ids_free(&bases);
    return NULL;
}

/* How much so many readers are answered, of a store of their own each or one for all. */
static void measure(segdag_store *store, const segdag_ids *asked, int count, bool share, int seconds) {
    reader readers[MOST];
    double sum = 0, spent = 0, began = 0;
    is_over = false;
    for (int i = 0; i < count; i++) {
        readers[i] = (reader){.store = store, .asked = asked, .number = (unsigned)i};
        if (!share && segdag_store_follow(store, &readers[i].store))
            stop("follow");
    }
    began = now(CLOCK_MONOTONIC);
    for (int i = 0; i < count; i++)
        if (pthread_create(&readers[i].thread, NULL, ask, &readers[i]))
            stop("thread");
    nanosleep(&(struct timespec){seconds, 0}, NULL);
    is_over = true;
    for (int i = 0; i < count; i++) {
        pthread_join(readers[i].thread, NULL);
        sum += (double)readers[i].answers;
        spent += readers[i].spent;
    }
    double took = now(CLOCK_MONOTONIC) - began;
    for (int i = 0; i < count && !share; i++)
        segdag_store_close(readers[i].store);
    printf("%d threads, %s: %.0f answers a second, %.0f a second of processor time\n", count, share ? "one store" : "a follower each", sum / took, sum / spent);
}

/* Keeps when the log was read. */
static bool watch(const segdag_progress *progress, void *read) {
    if (progress->stage == SEGDAG_STAGE_LOAD)
        *(double *)read = now(CLOCK_MONOTONIC);
    return false;
}

int main(int count, char **words) {
    segdag_open_options options = SEGDAG_OPEN_OPTIONS_INIT;
    segdag_store *store, *follower;
    segdag_ids asked = SEGDAG_IDS_INIT;
    if (count != 3)
        return 2;
    double read = 0, began = now(CLOCK_MONOTONIC);
    options.flags = SEGDAG_OPEN_FOLLOW;
    options.progress = watch;
    options.context = &read;
    if (segdag_store_open(words[1], &options, &store))
        stop(words[1]);
    double opened = now(CLOCK_MONOTONIC);
    printf("opening: %.2f ms, of which reading %.2f\n", (opened - began) * 1e3, (read - began) * 1e3);
    if (segdag_store_follow(store, &follower) || segdag_query_ids(store, 0, "top(all,100000)", 15, &asked))
        stop("follow");
    printf("one follower more: %.2f ms, of which reading %.2f\n", (now(CLOCK_MONOTONIC) - opened) * 1e3, (read - opened) * 1e3);
    segdag_store_close(follower);
    measure(store, &asked, 1, false, atoi(words[2]));
    measure(store, &asked, MOST, false, atoi(words[2]));
    measure(store, &asked, MOST, true, atoi(words[2]));
    segdag_ids_free(&asked);
    segdag_store_close(store);
    return 0;
}
