/* The search for a free node. */
#ifndef FREE_NODE_H
#define FREE_NODE_H

#include "arena.h"

/* The lowest-numbered node that no run of next links leads to from Head, Tail, or the pred, curr or spare of a worker; else NO_NODE. */
unsigned find_free_node(const struct arena *arena);

#endif
