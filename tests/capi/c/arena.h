/* The words of an arena as structs, and the test of its header, with which every call begins. */
#ifndef ARENA_H
#define ARENA_H

#include <stdbool.h>

#include "lazy_list.h"

enum { HEADER_WORDS = 8, WORKER_WORDS = 8, NODE_WORDS = 5, OLD_NODE_WORDS = 4 };
enum { OLD_LAYOUT = 1, LAYOUT = 2, MAX_WORKERS = 8, MIN_NODES = 3, MAX_NODES = 1024 };
enum { HEAD = 0, TAIL = 1, NO_NODE = 65535, MAX_KEY = 65534 };

/* The header; the workers and the nodes stand behind it. */
struct arena {
    uint16_t layout, workers, nodes, workers_at, nodes_at, total, count, zero;
};

struct worker {
    uint16_t stage, operation, key, pred, curr, spare, answer, label_length;
};

struct node {
    uint16_t key, next, mark, owner, label_length;
};

static const struct worker idle_worker = {.pred = NO_NODE, .curr = NO_NODE, .spare = NO_NODE};

/* Both for an arena whose header is in order. */
static inline struct worker *workers_of(const struct arena *arena) {
    return (struct worker *)((uint16_t *)arena + HEADER_WORDS);
}

static inline struct node *nodes_of(const struct arena *arena) {
    return (struct node *)((uint16_t *)arena + HEADER_WORDS + WORKER_WORDS * arena->workers);
}

static inline bool is_key(unsigned key) {
    return key >= 1 && key <= MAX_KEY;
}

static inline bool is_header(const struct arena *arena, unsigned layout, unsigned node_words, unsigned max_count) {
    unsigned nodes_at = HEADER_WORDS + WORKER_WORDS * arena->workers;

    return arena->layout == layout && arena->workers >= 1 && arena->workers <= MAX_WORKERS && arena->nodes >= MIN_NODES &&
           arena->nodes <= MAX_NODES && arena->workers_at == HEADER_WORDS && arena->nodes_at == nodes_at &&
           arena->total == nodes_at + node_words * arena->nodes && arena->count <= max_count && arena->zero == 0;
}

/* Refusal 1, 2 or 12, or 0. */
static inline enum lazy_list_refusal check_arena(const struct arena *arena, size_t length) {
    if (length < HEADER_WORDS || length < arena->total)
        return LAZY_LIST_SHORT_ARENA;
    if (is_header(arena, LAYOUT, NODE_WORDS, arena->nodes - 2u))
        return LAZY_LIST_ACCEPTED;
    return is_header(arena, OLD_LAYOUT, OLD_NODE_WORDS, 0) ? LAZY_LIST_OLD_LAYOUT : LAZY_LIST_ODD_HEADER;
}

#endif
