/*
 * A verified lazy list for label printers: a set of keys in lent 16-bit words, shared by up to eight workers.
 *
 * Every function is total: on words of any number and content it returns, reads and writes only the words lent to it, and a refused call
 * changes none of them. crates/capi/src/lib.rt has the contracts, which are proved; the definitions that they cite are in the folders
 * crates/NAME/specs. What the proofs cannot see is the caller's side. A C program must see to it that
 *   - a pointer leads to as many words as the length beside it says, `totals` to four; also with length 0 it is not null;
 *   - words lent to one call as different arguments do not overlap;
 *   - nobody else reads or writes the words during the call: a function is one atomic step only where calls on one arena take turns.
 * The library is compiled for x86-64 Linux, on processors with SSE4.2 and POPCNT (x86-64-v2: Intel's since about 2009, AMD's since 2011, the
 * small ones of both since 2013); README.md says how it is made for every x86-64, and for ARM64 Linux. It is some 13 kB of code that keeps
 * nothing between calls, allocates nothing, and of the C library wants memset, memcpy and memmove alone. It takes less than 4 kB of stack: a
 * turn some 110 bytes, one that takes a free node (stage 14) 1,240, a run 1,410.
 *
 * The arena for W workers (1 to 8) and N nodes (3 to 1,024), its words counted from 0:
 *   header, 8 words    layout (2), W, N, place of the worker records (8), place of the node records (8 + 8 W), total (8 + 8 W + 5 N), count,
 *                      0; the count is how many labels are stored, at most N less 2
 *   worker, 8 words    stage (0 to 25), operation (0 none), key, pred, curr, spare, answer (0 none), length of the label that an open call
 *                      adds (else 0); pred, curr and spare are nodes
 *   node, 5 words      key, next, mark (0 unmarked, anything else marked), owner (0 nobody, otherwise worker + 1), length of the label: 0 on
 *                      a fresh arena, then that of the last add that took the node, also once it is removed
 * Node 0 is Head, node 1 is Tail, and 65,535 is no node. Words past the total are never touched.
 * An arena from before the header had a count has 0 there, whatever it stores: it is to be laid anew.
 *
 * A reply is one number. Its lowest byte is 0, or the number of a refusal and then the whole reply; above it stand the report of a turn, one
 * byte, and up to two values, 16 bits each.
 */
#ifndef LAZY_LIST_H
#define LAZY_LIST_H

#include <stddef.h>
#include <stdint.h>

#ifdef __cplusplus
extern "C" {
#endif

/* Words of an arena; of an old one, for the converters; and no node. */
#define LAZY_LIST_WORDS(workers, nodes) (8 + 8 * (size_t)(workers) + 5 * (size_t)(nodes))
#define LAZY_LIST_OLD_WORDS(workers, nodes) (8 + 8 * (size_t)(workers) + 4 * (size_t)(nodes))
#define LAZY_LIST_NO_NODE 65535u

/* Refusals: the first that applies, in the order given at each function. */
enum lazy_list_refusal {
    LAZY_LIST_ACCEPTED = 0,
    LAZY_LIST_SHORT_ARENA = 1,    /* fewer than 8 words, or than word 5 says; in init and run, fewer than the counts need */
    LAZY_LIST_ODD_HEADER = 2,     /* the first 8 words are the header of no W, N and count, and no old one; in a conversion, none of the layout it takes */
    LAZY_LIST_NO_SUCH_WORKER = 3, /* a worker number of W or more */
    LAZY_LIST_BUSY = 4,           /* the worker, or in a conversion some worker, has a call that is not finished */
    LAZY_LIST_BAD_CALL = 5,       /* an operation that is not 1 to 3, key or last cell 0 or 65,535, or a length that the call, or a label that is converted, may not have */
    LAZY_LIST_BROKEN_RECORD = 6,  /* a worker record that no turn can work on; in a start and a conversion, its stage alone */
    LAZY_LIST_BROKEN_CHAIN = 7,   /* a link to no node, or, where the chain is walked and not stood on, keys that do not rise */
    LAZY_LIST_NO_ROOM = 8,        /* too few words lent for the keys, the calls, the waits or the converted arena, or too few lengths */
    LAZY_LIST_BAD_SCHEDULE = 9,   /* a number of words that is no multiple of 4, or above 16,000 */
    LAZY_LIST_BAD_COUNTS = 10,    /* W or N out of range */
    LAZY_LIST_OLD_LAYOUT = 12,    /* an old arena, of layout 1: its header is in order, and lazy_list_to_layout_2 alone takes it */
    LAZY_LIST_BROKEN_COUNT = 14   /* a turn that would store a label on a count of N less 2, or take one away from a count of 0 */
};

/* Operations of a call; keys are 1 to 65,534. */
enum lazy_list_operation { LAZY_LIST_ADD = 1, LAZY_LIST_REMOVE = 2, LAZY_LIST_CONTAINS = 3 };

/* What a turn reports, and what a call answers. */
enum lazy_list_report { LAZY_LIST_IDLE = 0, LAZY_LIST_MOVED = 1, LAZY_LIST_WAITS = 2, LAZY_LIST_FINISHED = 3 };
enum lazy_list_answer { LAZY_LIST_YES = 1, LAZY_LIST_NO = 2, LAZY_LIST_FULL = 3 };

/* Read a reply: its refusal, or 0; of an accepted turn the report. The first value is the stage moved to, the answer finished with, the
 * node waited for, the count of a snapshot's keys or of the stored labels, the node that find_free found, or the first cell of the longest
 * free run; the second is the worker that a turn waits for, the next words that find_free read, or the length of that run. What a reply
 * does not have is 0. */
#define LAZY_LIST_REFUSAL(reply) ((reply) % 256u)
#define LAZY_LIST_REPORT(reply) ((reply) / 256u % 256u)
#define LAZY_LIST_VALUE(reply) ((reply) / 65536u % 65536u)
#define LAZY_LIST_SECOND(reply) ((reply) / 4294967296u % 65536u)

/* Lays a fresh arena: idle workers and an empty list. Words past its total stay. Refused with 10, 1. */
uint64_t lazy_list_init(uint16_t *arena, size_t arena_length, uint16_t workers, uint16_t nodes);

/* Starts a call on an idle worker. An add has a label length, 1 to 65,534, and key and length together are at most 65,535; every other start
 * has 0. Whether a key is stored goes by the key alone: an add of a stored key answers no, and the label keeps its length. Refused with 1, 2,
 * 12, 3, 6, 4, 5. */
uint64_t lazy_list_start(uint16_t *arena, size_t arena_length, uint16_t worker, uint16_t operation, uint16_t key,
                         uint16_t label_length);

/* Gives a worker one turn: one step of its call, seen by all. A call is finished by the turn that reports LAZY_LIST_FINISHED. A turn that
 * waits changes nothing; it names the node it wants and the worker in the way, the node's owner word less 1. The turn that links a
 * label in (stage 15) adds one to the count, and the one that marks it (stage 16) takes one away. Refused with 1, 2, 12, 3, 6, 7, 14.
 * On an arena that init has laid and only start and turn have written it is never refused with 6, 7 or 14, and the worker in the way is
 * another, busy one, which must move on first. */
uint64_t lazy_list_turn(uint16_t *arena, size_t arena_length, uint16_t worker);

/* The lowest-numbered free node, or LAZY_LIST_NO_NODE; beside it how many next words the search for it read, on every arena exactly the number
 * of nodes that are not free. A node is free if no run of next links leads to it from node 0, node 1, or the pred, curr or spare of any
 * worker. The turn that takes a node makes the same search. Nothing is written. Refused with 1, 2, 12. */
uint64_t lazy_list_find_free(const uint16_t *arena, size_t arena_length);

/* Writes the keys of the set, in rising order, and counts them; words past them stay. A node that is marked but not unlinked yet is passed
 * over, and checked like the others. Refused with 1, 2, 12, 7, 8. On an arena that init has laid and only start and turn have written, room
 * for N less 2 keys is enough, and a contains that an idle worker starts then, and that alone gets turns until it finishes, answers yes
 * exactly if its key is listed. */
uint64_t lazy_list_snapshot(const uint16_t *arena, size_t arena_length, uint16_t *keys, size_t keys_length);

/* How many labels are stored: the header's count; no chain is walked. On an arena that init has laid and only start and turn have written it
 * is at every time the number of keys that a snapshot lists. Nothing is written. Refused with 1, 2, 12. */
uint64_t lazy_list_stored(const uint16_t *arena, size_t arena_length);

/* Where a long label fits: the first cell and the length of the longest run of cells from 1 to the last, which is 1 to 65,534, that lie in
 * no label of the set; of equal runs the one that begins lowest, and 0 and 0 where no cell is free. A label covers the cells from its key
 * to its key plus its length less 1; labels may overlap, and end past the last cell. It is one pass along the chain: its time goes by the
 * nodes there, and not by the cells. Nothing is written. Refused with 1, 2, 12, 5, 7. */
uint64_t lazy_list_longest_free_run(const uint16_t *arena, size_t arena_length, uint16_t last_cell);

/* From the old layout, and back. An old arena has layout 1: its nodes have four words, without a length, its total is 8 + 8 W + 4 N, and its
 * header has 0 where the count is now. Only these two take one or make one. An arena on which every worker is idle is written anew into
 * `target`, another arena: by lazy_list_to_layout_2 an old one as one of today, by lazy_list_to_layout_1 one of today as an old one. Layout,
 * total and count are new, all other words of the header, the worker records and the first four words of each node are copied as they stand.
 * To layout 2 `label_lengths` has one length for each node number, N or more: it is used for the nodes of the set, unmarked and on the chain,
 * where it is to be 1 to 65,534, and key and length together at most 65,535; every other node gets 0. To layout 1 the lengths are dropped, so
 * each stored label is to be 1 cell long. Words of the target past its total stay, and the source is not written; a refusal leaves the target
 * as it was. To layout 2 with every length 1, and back, gives the same words.
 * On what lazy_list_to_layout_2 leaves calls can be made. If the old arena was sound, all that is said here of an arena that init has laid and
 * only start and turn have written holds of it too. Sound is: each worker record is as init leaves it, no node has an owner, and each leads to
 * a node; Head has key 0, Tail has key 65,535 and leads to itself, and from Head to Tail keys rise.
 * Refused with 1, 2, 6, 4, 7, 8, 5. */
uint64_t lazy_list_to_layout_2(const uint16_t *source, size_t source_length, const uint16_t *label_lengths, size_t label_lengths_length,
                               uint16_t *target, size_t target_length);
uint64_t lazy_list_to_layout_1(const uint16_t *source, size_t source_length, uint16_t *target, size_t target_length);

/* Runs a schedule on an arena that it lays itself. An entry is four words: worker, act (0 turn, or an operation to start), key and label
 * length (both not looked at for a turn). A refused entry is counted and the run goes on. Entries are counted from 1; the history gets seven
 * words for each accepted start, in their order: worker, operation, key, start, point, finish, answer, where start, point and finish are
 * numbers of entries, 0 stands for what was not reached, and words past the records stay. It needs room for a record to each entry with act 1
 * to 3.
 * The waits get four words for each turn that waited, in their order: the number of the call's record in the history (from 0), the number
 * of the entry, the node it wanted, the worker in the way, which is another, busy one. They need room for a record to each entry with act
 * 0, and words past the records stay. Both lengths are in words.
 * The totals are entries, refused, waits, calls. The calls in the order of their points are a run of a sequential set, which ends with the
 * labels of the arena, keys and lengths: that is proved.
 * Refused with 10, 9, 1, 8. */
uint64_t lazy_list_run(uint16_t *arena, size_t arena_length, uint16_t workers, uint16_t nodes, const uint16_t *schedule,
                       size_t schedule_length, uint16_t *history, size_t history_length, uint16_t *waits, size_t waits_length,
                       uint16_t totals[4]);

#ifdef __cplusplus
}
#endif

#endif
