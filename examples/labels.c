/*
 * A printer with two workers. Worker 0 stores a label with its length, looks it up and takes it out again, alone, and so makes room for a
 * longer one; then worker 1 finds it in the way. Last a schedule is run in which worker 1 looks for a label while worker 0 takes it out, and
 * waits for a node that worker 0 has.
 *
 *     (cd crates/capi && rt lib)
 *     cc -std=c99 -Iinclude examples/labels.c crates/capi/out/libcapi.a -o labels && ./labels
 */
#include <stdio.h>

#include "lazy_list.h"

enum { WORKERS = 2, NODES = 3, CALLS = 7, TURNS = 103, NODE_WORDS = 5, ENTRY_WORDS = 4, CALL_WORDS = 7, WAIT_WORDS = 4 };
enum { LAST_CELL = 12, PALLET_LENGTH = 10 };

static uint16_t arena[LAZY_LIST_WORDS(WORKERS, NODES)];
static const size_t arena_length = sizeof arena / sizeof *arena;

static const char *const operations[] = {"none", "add", "remove", "contains"};
static const char *const answers[] = {"open", "yes", "no", "full"};

/* Starts a call on a worker and gives it turns until it has finished. Here nobody is in its way. An add has a length, and other calls 0. */
static void call(uint16_t worker, uint16_t operation, uint16_t key, uint16_t label_length) {
    uint64_t reply = lazy_list_start(arena, arena_length, worker, operation, key, label_length);
    unsigned turns = 0;

    while (LAZY_LIST_REFUSAL(reply) == 0 && LAZY_LIST_REPORT(reply) != LAZY_LIST_FINISHED) {
        reply = lazy_list_turn(arena, arena_length, worker);
        turns++;
    }
    printf("%s %u", operations[operation], (unsigned)key);
    if (label_length != 0)
        printf(" length %u", (unsigned)label_length);
    printf(": ");
    if (LAZY_LIST_REFUSAL(reply) != 0)
        printf("refused %u\n", (unsigned)LAZY_LIST_REFUSAL(reply));
    else
        printf("%s after %u turns\n", answers[LAZY_LIST_VALUE(reply)], turns);
}

/* The length that is kept with a stored key: the fifth word of its node, which Head leads to. */
static unsigned length_of(uint16_t key) {
    const uint16_t *nodes = arena + arena[4], *node = nodes;

    while (node[0] != key)
        node = nodes + NODE_WORDS * (size_t)node[1];
    return node[4];
}

/* How many labels are stored, which the header tells, and which they are, for which the chain is walked. */
static void print_labels(void) {
    uint16_t keys[NODES - 2];
    uint64_t reply = lazy_list_snapshot(arena, arena_length, keys, sizeof keys / sizeof *keys);

    printf("stored %u:", (unsigned)LAZY_LIST_VALUE(lazy_list_stored(arena, arena_length)));
    for (size_t i = 0; i < LAZY_LIST_VALUE(reply); i++)
        printf(" %u (length %u)", (unsigned)keys[i], length_of(keys[i]));
    printf("\n");
}

/* Which node the next add would take, and what it costs to find out: one next word for each node that is not free. */
static void print_free(void) {
    uint64_t reply = lazy_list_find_free(arena, arena_length);

    if (LAZY_LIST_VALUE(reply) == LAZY_LIST_NO_NODE)
        printf("no node is free");
    else
        printf("node %u is free", (unsigned)LAZY_LIST_VALUE(reply));
    printf(": %u next words read\n", (unsigned)LAZY_LIST_SECOND(reply));
}

/* Stores the label of a pallet where the longest run of free cells begins, if it is long enough. */
static void place_pallet(void) {
    uint64_t reply = lazy_list_longest_free_run(arena, arena_length, LAST_CELL);
    unsigned first = LAZY_LIST_VALUE(reply), length = LAZY_LIST_SECOND(reply);

    if (length < PALLET_LENGTH)
        printf("no room for %d cells: the longest free run has %u, from %u on\n", PALLET_LENGTH, length, first);
    else
        call(0, LAZY_LIST_ADD, (uint16_t)first, PALLET_LENGTH);
}

/* Worker 0 stops with Head in its hands: the turn of worker 1 that wants Head waits, and says so. */
static void meet_at_head(void) {
    uint64_t reply;

    lazy_list_start(arena, arena_length, 0, LAZY_LIST_ADD, 5, 3);
    for (unsigned turns = 0; turns < 4; turns++)
        lazy_list_turn(arena, arena_length, 0);
    lazy_list_start(arena, arena_length, 1, LAZY_LIST_ADD, 7, 2);
    do
        reply = lazy_list_turn(arena, arena_length, 1);
    while (LAZY_LIST_REPORT(reply) == LAZY_LIST_MOVED);
    if (LAZY_LIST_REPORT(reply) == LAZY_LIST_WAITS)
        printf("worker 1 waits for node %u: worker %u is in the way\n", (unsigned)LAZY_LIST_VALUE(reply),
               (unsigned)LAZY_LIST_SECOND(reply));
}

static uint16_t *entry(uint16_t *at, uint16_t worker, uint16_t act, uint16_t key, uint16_t label_length) {
    *at++ = worker;
    *at++ = act;
    *at++ = key;
    *at++ = label_length;
    return at;
}

/* So many turns of a worker; their key and length are not looked at. */
static uint16_t *turns(uint16_t *at, uint16_t worker, unsigned count) {
    for (; count > 0; count--)
        at = entry(at, worker, 0, 0, 0);
    return at;
}

/* Worker 1 stands on the node of 5 while worker 0 takes it out: the answer is no, and the node is not free as long as that lasts. Later
 * worker 1 wants the node of 7 while worker 0 takes that out. */
static size_t write_schedule(uint16_t *schedule) {
    uint16_t *at = schedule;

    at = entry(at, 0, LAZY_LIST_ADD, 5, 3);
    at = turns(at, 0, 14);
    at = entry(at, 1, LAZY_LIST_CONTAINS, 5, 0);
    at = turns(at, 1, 4);
    at = entry(at, 0, LAZY_LIST_REMOVE, 5, 0);
    at = turns(at, 0, 15);
    at = entry(at, 0, LAZY_LIST_ADD, 7, 2);
    at = turns(at, 0, 13);
    at = turns(at, 1, 2);
    at = entry(at, 0, LAZY_LIST_ADD, 7, 2);
    at = turns(at, 0, 14);
    at = entry(at, 0, LAZY_LIST_REMOVE, 7, 0);
    at = turns(at, 0, 5);
    at = entry(at, 1, LAZY_LIST_ADD, 9, 4);
    at = turns(at, 1, 7);
    at = turns(at, 0, 10);
    at = turns(at, 1, 19);
    return (size_t)(at - schedule);
}

/* A call, and behind it its waits. */
static void print_call(unsigned number, const uint16_t *record, const uint16_t *waits, const uint16_t *waits_end) {
    printf("%u %s %u %u %u %u %s\n", (unsigned)record[0], operations[record[1]], (unsigned)record[2], (unsigned)record[3],
           (unsigned)record[4], (unsigned)record[5], answers[record[6]]);
    for (const uint16_t *wait = waits; wait < waits_end; wait += WAIT_WORDS)
        if (wait[0] == number)
            printf("wait %u %u %u\n", (unsigned)wait[1], (unsigned)wait[2], (unsigned)wait[3]);
}

static void run_schedule(void) {
    static uint16_t schedule[ENTRY_WORDS * (CALLS + TURNS)], history[CALL_WORDS * CALLS], waits[WAIT_WORDS * TURNS];
    size_t schedule_length = write_schedule(schedule);
    uint16_t totals[4] = {0, 0, 0, 0};
    uint64_t reply = lazy_list_run(arena, arena_length, WORKERS, NODES, schedule, schedule_length, history,
                                   sizeof history / sizeof *history, waits, sizeof waits / sizeof *waits, totals);

    if (LAZY_LIST_REFUSAL(reply) != 0) {
        printf("refused %u\n", (unsigned)LAZY_LIST_REFUSAL(reply));
        return;
    }
    printf("entries %u refused %u waits %u calls %u\n", (unsigned)totals[0], (unsigned)totals[1], (unsigned)totals[2],
           (unsigned)totals[3]);
    for (unsigned number = 0; number < totals[3]; number++)
        print_call(number, history + CALL_WORDS * number, waits, waits + WAIT_WORDS * totals[2]);
}

int main(void) {
    if (LAZY_LIST_REFUSAL(lazy_list_init(arena, arena_length, WORKERS, NODES)) != 0)
        return 1;
    call(0, LAZY_LIST_ADD, 5, 3);
    call(0, LAZY_LIST_CONTAINS, 5, 0);
    print_labels();
    print_free();
    call(0, LAZY_LIST_ADD, 5, 4); /* it is there already, and keeps its length */
    print_labels();
    call(0, LAZY_LIST_REMOVE, 5, 0);
    print_labels();
    print_free();
    call(0, LAZY_LIST_CONTAINS, 5, 0);
    call(0, LAZY_LIST_ADD, 0, 3);
    call(0, LAZY_LIST_ADD, 65530, 6); /* key and length are at most 65,535 together */
    call(0, LAZY_LIST_ADD, 5, 3);
    place_pallet();
    call(0, LAZY_LIST_REMOVE, 5, 0);
    place_pallet();
    print_labels();
    call(0, LAZY_LIST_REMOVE, 1, 0);
    meet_at_head();
    run_schedule();
    print_labels();
    return 0;
}
