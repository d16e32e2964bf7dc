#include "free_node.h"

#include <string.h>

/* Marks the node and those behind it, up to one that is marked already or a link that leads to no node. */
static void reach_from(const struct arena *arena, bool *reached, unsigned node) {
    const struct node *nodes = nodes_of(arena);

    while (node < arena->nodes && !reached[node]) {
        reached[node] = true;
        node = nodes[node].next;
    }
}

unsigned find_free_node(const struct arena *arena) {
    const struct worker *workers = workers_of(arena);
    bool reached[MAX_NODES];

    memset(reached, 0, arena->nodes * sizeof *reached);
    reach_from(arena, reached, HEAD);
    reach_from(arena, reached, TAIL);
    for (unsigned i = 0; i < arena->workers; i++) {
        reach_from(arena, reached, workers[i].pred);
        reach_from(arena, reached, workers[i].curr);
        reach_from(arena, reached, workers[i].spare);
    }
    for (unsigned node = 0; node < arena->nodes; node++)
        if (!reached[node])
            return node;
    return NO_NODE;
}
