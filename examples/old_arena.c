/*
 * A saved arena of the old layout, layout 1, on which two labels are stored. Nothing but a conversion takes it: it is written anew in layout 2
 * with the lengths of its labels, and worked on. It cannot be written back as it is then; where every label is 1 cell long it can, and the
 * words are the same as before.
 *
 *     (cd crates/capi && rt lib)
 *     cc -std=c99 -Iinclude examples/old_arena.c crates/capi/out/libcapi.a -o old_arena && ./old_arena
 */
#include <stdio.h>
#include <string.h>

#include "lazy_list.h"

enum { WORKERS = 1, NODES = 5, OLD_NODE_WORDS = 4, LAST_CELL = 12 };

static const uint16_t old_arena[LAZY_LIST_OLD_WORDS(WORKERS, NODES)] = {
    1,     1, 5, 8, 16, 36, 0, 0,             /* layout 1, 1 worker, 5 nodes, 36 words */
    0,     0, 0, 65535, 65535, 65535, 0, 0,   /* the worker is idle */
    0,     2, 0, 0,                           /* Head leads to node 2, */
    65535, 1, 0, 0,                           /* (Tail) */
    5,     3, 0, 0,                           /* label 5, to node 3, */
    9,     1, 0, 0,                           /* label 9, and to Tail */
    7,     3, 1, 0,                           /* label 7 was taken out */
};
static uint16_t written_back[LAZY_LIST_OLD_WORDS(WORKERS, NODES)], new_arena[LAZY_LIST_WORDS(WORKERS, NODES)];
static const size_t old_length = sizeof old_arena / sizeof *old_arena, new_length = sizeof new_arena / sizeof *new_arena;

/* Starts a call on worker 0 and gives it turns until it has finished. */
static void call(uint16_t operation, uint16_t key, uint16_t label_length) {
    uint64_t reply = lazy_list_start(new_arena, new_length, 0, operation, key, label_length);

    while (LAZY_LIST_REFUSAL(reply) == 0 && LAZY_LIST_REPORT(reply) != LAZY_LIST_FINISHED)
        reply = lazy_list_turn(new_arena, new_length, 0);
}

static void print_labels(void) {
    uint16_t keys[NODES - 2];
    uint64_t reply = lazy_list_snapshot(new_arena, new_length, keys, sizeof keys / sizeof *keys);

    printf("stored %u:", (unsigned)LAZY_LIST_VALUE(lazy_list_stored(new_arena, new_length)));
    for (size_t i = 0; i < LAZY_LIST_VALUE(reply); i++)
        printf(" %u", (unsigned)keys[i]);
    printf("\n");
}

static void print_free_cells(void) {
    uint64_t reply = lazy_list_longest_free_run(new_arena, new_length, LAST_CELL);

    printf("cells %u to %u are free\n", (unsigned)LAZY_LIST_VALUE(reply),
           (unsigned)(LAZY_LIST_VALUE(reply) + LAZY_LIST_SECOND(reply) - 1));
}

/* Lengths are lent by the number of a node, and looked at for the nodes of the set alone: here by their keys, along the chain. A chain that is
 * broken is refused later, so the walk has an end of its own. */
static void find_lengths(uint16_t lengths[NODES]) {
    const uint16_t *nodes = old_arena + old_arena[4];
    uint16_t node = nodes[1];

    for (unsigned steps = 0; node != 1 && node < NODES && steps < NODES; steps++) {
        lengths[node] = nodes[OLD_NODE_WORDS * node] == 5 ? 3 : 2;
        node = nodes[OLD_NODE_WORDS * node + 1];
    }
}

static void print_verdict(const char *what, uint64_t reply) {
    if (LAZY_LIST_REFUSAL(reply) != 0)
        printf("%s: refused %u\n", what, (unsigned)LAZY_LIST_REFUSAL(reply));
    else
        printf("%s: done\n", what);
}

int main(void) {
    uint16_t lengths[NODES] = {0}, ones[NODES] = {1, 1, 1, 1, 1};

    print_verdict("stored in the old arena", lazy_list_stored(old_arena, old_length));
    print_verdict("no lengths", lazy_list_to_layout_2(old_arena, old_length, lengths, NODES, new_arena, new_length));
    find_lengths(lengths);
    print_verdict("to layout 2", lazy_list_to_layout_2(old_arena, old_length, lengths, NODES, new_arena, new_length));
    print_labels();
    print_free_cells();
    call(LAZY_LIST_REMOVE, 9, 0);
    call(LAZY_LIST_ADD, 8, 4);
    print_labels();

    print_verdict("back to layout 1", lazy_list_to_layout_1(new_arena, new_length, written_back, old_length));
    print_verdict("to layout 2, all of 1 cell", lazy_list_to_layout_2(old_arena, old_length, ones, NODES, new_arena, new_length));
    print_verdict("back to layout 1", lazy_list_to_layout_1(new_arena, new_length, written_back, old_length));
    printf("the words are %s\n", memcmp(old_arena, written_back, sizeof old_arena) == 0 ? "the same" : "others");
    print_verdict("a call on them", lazy_list_start(written_back, old_length, 0, LAZY_LIST_CONTAINS, 5, 0));
    return 0;
}
