/* A small history: two commits on top of one, stored, and asked. `cc example.c -lsegdag`, and then `./a.out LOG` of a new log. */
#include <segdag.h>
#include <inttypes.h>
#include <stdio.h>
#include <string.h>

/* Says why a call failed, if it did. */
static int failed(const char *what, segdag_code code) {
    if (code)
        fprintf(stderr, "%s: %s\n", what, segdag_last_error()->text);
    return code != SEGDAG_OK;
}

static void print_id(const segdag_id *id) {
    for (int i = 0; i < SEGDAG_ID_SIZE; i++)
        printf("%02x", id->id[i]);
    printf("\n");
}

static int build(segdag_store *store, segdag_id ids[3]) {
    segdag_sizes sizes = SEGDAG_SIZES_INIT;
    uint64_t number;
    for (int i = 0; i < 3; i++) {
        memset(&ids[i], i + 1, sizeof ids[i]);
        if (failed("add", segdag_commit_add(store, 0, &ids[i], ids, i > 0, &number)))
            return 1;
        printf("added N%" PRIu64 "\n", number - SEGDAG_OTHERS);
    }
    if (failed("flush", segdag_session_flush(store, 0, &ids[1], 1, &sizes)))
        return 1;
    printf("stored %" PRIu64 " in master, %" PRIu64 " others\n", sizes.master, sizes.others);
    return 0;
}

static int ask(segdag_store *store, const segdag_id ids[3]) {
    bool is = false;
    segdag_ids bases = SEGDAG_IDS_INIT;
    segdag_cursor *all = NULL;
    segdag_id block[2];
    size_t count = 0;
    if (failed("is ancestor", segdag_commit_is_ancestor(store, 0, &ids[0], &ids[2], &is)))
        return 1;
    printf("the first is an ancestor of the third: %s\n", is ? "yes" : "no");
    if (failed("merge bases", segdag_commit_merge_bases(store, 0, &ids[1], &ids[2], &bases)))
        return 1;
    for (size_t i = 0; i < bases.count; i++)
        print_id(&bases.ids[i]);
    segdag_ids_free(&bases);
    if (failed("query", segdag_query_open(store, 0, "all", 3, &all)))
        return 1;
    printf("%" PRIu64 " commits:\n", segdag_cursor_left(all));
    while (!segdag_cursor_next(all, block, 2, &count) && count > 0)
        for (size_t i = 0; i < count; i++)
            print_id(&block[i]);
    segdag_cursor_close(all);
    return 0;
}

int main(int count, char **words) {
    segdag_open_options options = SEGDAG_OPEN_OPTIONS_INIT;
    segdag_id ids[3];
    segdag_store *store = NULL;
    options.flags = SEGDAG_OPEN_CREATE;
    if (failed("open", segdag_store_open(count > 1 ? words[1] : "example.log", &options, &store)))
        return 1;
    int end = build(store, ids) || ask(store, ids);
    segdag_store_close(store);
    return end;
}
