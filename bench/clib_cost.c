/* One of the library's calls, so many times over a log: clib_cost LOG CALL TIMES FIRST SECOND, where the names are of its commits. */
#include "segdag.h"
#include <stdio.h>
#include <stdlib.h>
#include <string.h>

static void read_id(const char *text, segdag_id *id) {
    for (int i = 0; i < SEGDAG_ID_SIZE; i++)
        sscanf(text + 2 * i, "%2hhx", &id->id[i]);
}

static segdag_code ask(segdag_store *store, const char *call, const segdag_pair *pair) {
    static segdag_ids names;
    segdag_id id;
    segdag_distance distance;
    segdag_sizes sizes = SEGDAG_SIZES_INIT;
    uint64_t number;
    size_t done;
    bool is;
    if (!strcmp(call, "commit_is_ancestor"))
        return segdag_commit_is_ancestor(store, 0, &pair->left, &pair->right, &is);
    if (!strcmp(call, "commit_merge_bases"))
        return segdag_commit_merge_bases(store, 0, &pair->left, &pair->right, &names);
    if (!strcmp(call, "commit_ahead_behind"))
        return segdag_commit_ahead_behind(store, 0, pair, 1, &distance, &done);
    if (!strcmp(call, "commit_number"))
        return segdag_commit_number(store, 0, &pair->left, &number);
    if (!strcmp(call, "commit_id"))
        return segdag_commit_id(store, 0, 7, &id);
    if (!strcmp(call, "session_sizes"))
        return segdag_session_sizes(store, 0, &sizes);
    return SEGDAG_ARGUMENT;
}

int main(int count, char **words) {
    segdag_store *store = NULL;
    segdag_pair pair;
    segdag_code status = count == 6 ? segdag_store_open(words[1], NULL, &store) : SEGDAG_ARGUMENT;
    if (status == SEGDAG_OK) {
        read_id(words[4], &pair.left);
        read_id(words[5], &pair.right);
    }
    for (int left = status ? 0 : atoi(words[3]); left > 0 && status == SEGDAG_OK; left--)
        status = ask(store, words[2], &pair);
    segdag_store_close(store);
    return (int)status;
}
