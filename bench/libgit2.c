/* What libgit2's calls take over a repository, in processor time: libgit2 REPOSITORY FIRST SECOND..., where each pair of names is of its
   commits. */
#define _GNU_SOURCE
#include <git2.h>
#include <stdio.h>
#include <stdlib.h>
#include <time.h>

static double now(void) {
    struct timespec at;
    clock_gettime(CLOCK_PROCESS_CPUTIME_ID, &at);
    return (double)at.tv_sec + (double)at.tv_nsec / 1e9;
}

/* Asks for at least a fifth of a second, and prints what one question took, in microseconds. */
#define TOLD(what, question)                                                    \
    do {                                                                        \
        double began = now();                                                   \
        int times = 0, failed = 0;                                              \
        do {                                                                    \
            failed |= (question) < 0;                                           \
            times += 1;                                                         \
        } while (now() - began < 0.2);                                          \
        printf("%-24s %.2f%s\n", what, (now() - began) / times * 1e6, failed ? " failed" : ""); \
    } while (0)

static void ask(git_repository *store, const git_oid *a, const git_oid *b) {
    git_oidarray bases = {0};
    git_oid base;
    size_t ahead = 0, behind = 0;
    TOLD("is-ancestor", git_graph_descendant_of(store, b, a));
    TOLD("merge base", git_merge_base(&base, store, a, b));
    TOLD("merge bases", (git_oidarray_dispose(&bases), git_merge_bases(&bases, store, a, b)));
    TOLD("ahead and behind", git_graph_ahead_behind(&ahead, &behind, store, a, b));
    printf("%-24s %zu %zu\n", "they are", ahead, behind);
    git_oidarray_dispose(&bases);
}

int main(int count, char **words) {
    git_repository *store = NULL;
    git_libgit2_init();
    double began = now();
    if (count < 4 || git_repository_open(&store, words[1]))
        return 1;
    printf("%-24s %.2f\n", "open", (now() - began) * 1e6);
    for (int i = 2; i + 1 < count; i += 2) {
        git_oid a, b;
        if (git_oid_fromstr(&a, words[i]) || git_oid_fromstr(&b, words[i + 1]))
            return 1;
        ask(store, &a, &b);
    }
    git_repository_free(store);
    git_libgit2_shutdown();
    return 0;
}
