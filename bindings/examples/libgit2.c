/* The graph calls of a client of libgit2, answered by segdag beside libgit2 itself: libgit2 REPOSITORY LOG PAIRS takes a repository's commits into
   a new log, draws so many pairs of them, asks both libraries, and compares. `cc -O2 libgit2.c -lsegdag -lgit2`. Each call here has the arguments
   of the one whose name it has in libgit2. */
#define _GNU_SOURCE
#include <git2.h>
#include <segdag.h>
#include <stdio.h>
#include <stdlib.h>
#include <string.h>
#include <time.h>

/* Both have 20 bytes for the id of a commit. */
static segdag_id id_of(const git_oid *oid) {
    segdag_id id;
    memcpy(id.id, oid->id, sizeof id.id);
    return id;
}

static int told(segdag_code code) {
    if (code)
        fprintf(stderr, "segdag: %s\n", segdag_last_error()->text);
    return code ? -1 : 0;
}

/* ---- what a client calls */

static int graph_ahead_behind(size_t *ahead, size_t *behind, segdag_store *store, const git_oid *local, const git_oid *upstream) {
    segdag_pair pair = {id_of(local), id_of(upstream)};
    segdag_distance distance = {0, 0};
    size_t done;
    int failed = told(segdag_commit_ahead_behind(store, 0, &pair, 1, &distance, &done));
    *ahead = (size_t)distance.ahead;
    *behind = (size_t)distance.behind;
    return failed;
}

/* A commit is no descendant of itself there. */
static int graph_descendant_of(segdag_store *store, const git_oid *commit, const git_oid *ancestor) {
    segdag_id child = id_of(commit), parent = id_of(ancestor);
    bool is = false;
    if (told(segdag_commit_is_ancestor(store, 0, &parent, &child, &is)))
        return -1;
    return is && memcmp(&child, &parent, sizeof child) != 0;
}

static int merge_bases(segdag_ids *bases, segdag_store *store, const git_oid *one, const git_oid *two) {
    segdag_id a = id_of(one), b = id_of(two);
    if (told(segdag_commit_merge_bases(store, 0, &a, &b, bases)))
        return -1;
    return bases->count ? 0 : GIT_ENOTFOUND;
}

/* ---- a repository's commits */

typedef struct history {
    git_oid *commits; /* parents in front of children */
    size_t count, room;
} history;

static int put_commit(segdag_store *store, git_repository *repository, const git_oid *oid) {
    git_commit *commit;
    segdag_id id = id_of(oid), parents[SEGDAG_MOST_PARENTS];
    uint64_t number;
    if (git_commit_lookup(&commit, repository, oid))
        return -1;
    unsigned count = git_commit_parentcount(commit);
    for (unsigned i = 0; i < count && i < SEGDAG_MOST_PARENTS; i++)
        parents[i] = id_of(git_commit_parent_id(commit, i));
    git_commit_free(commit);
    return told(segdag_commit_add(store, 0, &id, parents, count, &number));
}

/* Takes all commits of all references into the store's master, some thousands at a time. */
static int import(segdag_store *store, git_repository *repository, history *of) {
    segdag_sizes sizes = SEGDAG_SIZES_INIT;
    git_revwalk *walk;
    git_oid oid;
    if (git_revwalk_new(&walk, repository) || git_revwalk_sorting(walk, GIT_SORT_TOPOLOGICAL | GIT_SORT_REVERSE) || git_revwalk_push_glob(walk, "*"))
        return -1;
    int failed = 0;
    while (!failed && !git_revwalk_next(&oid, walk)) {
        if (of->count == of->room) {
            of->room = of->room ? 2 * of->room : 1024;
            of->commits = realloc(of->commits, of->room * sizeof oid);
        }
        if (!of->commits)
            return -1;
        of->commits[of->count++] = oid;
        failed = put_commit(store, repository, &oid);
        segdag_id head = id_of(&oid);
        if (!failed && of->count % 20000 == 0)
            failed = told(segdag_session_flush(store, 0, &head, 1, &sizes));
    }
    git_revwalk_free(walk);
    return failed ? failed : told(segdag_session_flush(store, 0, NULL, 0, &sizes));
}

/* ---- both beside each other */

static double now(void) {
    struct timespec at;
    clock_gettime(CLOCK_PROCESS_CPUTIME_ID, &at);
    return (double)at.tv_sec + (double)at.tv_nsec / 1e9;
}

/* Seconds that each took, of libgit2 and of segdag. */
typedef struct spent {
    double git, own;
} spent;

static int compare_distance(git_repository *repository, segdag_store *store, const git_oid *a, const git_oid *b, spent *took) {
    size_t ahead[2] = {0, 0}, behind[2] = {0, 0};
    double began = now();
    int git = git_graph_ahead_behind(&ahead[0], &behind[0], repository, a, b) ? -1 : git_graph_descendant_of(repository, a, b);
    double between = now();
    int own = graph_ahead_behind(&ahead[1], &behind[1], store, a, b) ? -1 : graph_descendant_of(store, a, b);
    took->git += between - began;
    took->own += now() - between;
    return git < 0 || git != own || ahead[0] != ahead[1] || behind[0] != behind[1];
}

static int compare_bases(git_repository *repository, segdag_store *store, const git_oid *a, const git_oid *b, spent *took) {
    git_oidarray there = {0};
    segdag_ids bases = SEGDAG_IDS_INIT;
    double began = now();
    int git = git_merge_bases(&there, repository, a, b);
    double between = now();
    int own = merge_bases(&bases, store, a, b);
    took->git += between - began;
    took->own += now() - between;
    size_t same = 0;
    for (size_t i = 0; i < there.count; i++)
        for (size_t j = 0; j < bases.count; j++)
            same += !memcmp(there.ids[i].id, bases.ids[j].id, sizeof bases.ids[j].id);
    bool is_other = git != own || same != there.count || same != bases.count;
    git_oidarray_dispose(&there);
    segdag_ids_free(&bases);
    return is_other;
}

static int compare(git_repository *repository, segdag_store *store, const history *of, int pairs) {
    spent distance = {0, 0}, bases = {0, 0};
    int others = 0;
    srand(1);
    for (int i = 0; i < pairs && of->count > 0; i++) {
        const git_oid *a = &of->commits[(size_t)rand() % of->count], *b = &of->commits[(size_t)rand() % of->count];
        others += compare_distance(repository, store, a, b, &distance) || compare_bases(repository, store, a, b, &bases);
    }
    printf("%zu commits, %d pairs, %d other answers\n", of->count, pairs, others);
    printf("ahead, behind and descendant, microseconds: libgit2 %.1f segdag %.1f\n", distance.git / pairs * 1e6, distance.own / pairs * 1e6);
    printf("merge bases, microseconds: libgit2 %.1f segdag %.1f\n", bases.git / pairs * 1e6, bases.own / pairs * 1e6);
    return others;
}

int main(int count, char **words) {
    segdag_open_options options = SEGDAG_OPEN_OPTIONS_INIT;
    segdag_store *store = NULL;
    git_repository *repository = NULL;
    history of = {NULL, 0, 0};
    options.flags = SEGDAG_OPEN_CREATE;
    git_libgit2_init();
    if (count != 4 || git_repository_open(&repository, words[1]) || told(segdag_store_open(words[2], &options, &store)))
        return 2;
    int end = import(store, repository, &of) || compare(repository, store, &of, atoi(words[3]));
    segdag_store_close(store);
    git_repository_free(repository);
    git_libgit2_shutdown();
    free(of.commits);
    return end != 0;
}
