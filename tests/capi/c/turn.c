#include "arena.h"
#include "free_node.h"
#include "plain_list.h"

/* What a turn works with. */
struct turn {
    struct arena *arena;
    struct worker *me;
    uint16_t owner; /* the worker's number plus 1 */
};

static inline uint64_t reply(unsigned report, unsigned value, unsigned second) {
    return (uint64_t)report << 8 | (uint64_t)value << 16 | (uint64_t)second << 32;
}

static inline uint64_t move_to(struct turn *turn, uint16_t stage) {
    turn->me->stage = stage;
    return reply(LAZY_LIST_MOVED, stage, 0);
}

static inline uint64_t decide(struct turn *turn, uint16_t answer, uint16_t stage) {
    turn->me->answer = answer;
    return move_to(turn, stage);
}

/* What a worker record must hold at a stage: an operation, nodes of the arena where the stage looks at them, an answer. */

static inline bool calls(const struct turn *turn, unsigned first, unsigned last) {
    return turn->me->operation >= first && turn->me->operation <= last;
}

static inline bool adds(const struct turn *turn) {
    return calls(turn, LAZY_LIST_ADD, LAZY_LIST_ADD);
}

static inline bool removes(const struct turn *turn) {
    return calls(turn, LAZY_LIST_REMOVE, LAZY_LIST_REMOVE);
}

static inline bool updates(const struct turn *turn) {
    return calls(turn, LAZY_LIST_ADD, LAZY_LIST_REMOVE);
}

static inline bool looks_up(const struct turn *turn) {
    return calls(turn, LAZY_LIST_CONTAINS, LAZY_LIST_CONTAINS);
}

static inline bool has_pred(const struct turn *turn) {
    return turn->me->pred < turn->arena->nodes;
}

static inline bool has_curr(const struct turn *turn) {
    return turn->me->curr < turn->arena->nodes;
}

static inline bool has_spare(const struct turn *turn) {
    return turn->me->spare < turn->arena->nodes;
}

static inline bool has_answer(const struct turn *turn) {
    return turn->me->answer >= LAZY_LIST_YES && turn->me->answer <= LAZY_LIST_FULL;
}

/* What the stages do. */

static inline struct node *pred(const struct turn *turn) {
    return &nodes_of(turn->arena)[turn->me->pred];
}

static inline struct node *curr(const struct turn *turn) {
    return &nodes_of(turn->arena)[turn->me->curr];
}

static inline uint64_t set(struct turn *turn, uint16_t *place, uint16_t node, uint16_t stage) {
    *place = node;
    return move_to(turn, stage);
}

static inline uint64_t follow(struct turn *turn, const struct node *node, uint16_t *place, uint16_t stage) {
    return node->next < turn->arena->nodes ? set(turn, place, node->next, stage) : LAZY_LIST_BROKEN_CHAIN;
}

static inline uint64_t lock(struct turn *turn, uint16_t number, uint16_t stage) {
    struct node *node = &nodes_of(turn->arena)[number];

    if (node->owner != 0)
        return reply(LAZY_LIST_WAITS, number, node->owner - 1u);
    node->owner = turn->owner;
    return move_to(turn, stage);
}

static inline uint64_t unlock(struct turn *turn, struct node *node, uint16_t stage) {
    node->owner = 0;
    return move_to(turn, stage);
}

static inline uint64_t judge(struct turn *turn) {
    bool is_stored = curr(turn)->key == turn->me->key;

    if (turn->me->operation == LAZY_LIST_ADD)
        return is_stored ? decide(turn, LAZY_LIST_NO, 19) : move_to(turn, 14);
    return is_stored ? move_to(turn, 16) : decide(turn, LAZY_LIST_NO, 19);
}

static inline uint64_t take_node(struct turn *turn) {
    unsigned number = find_free_node(turn->arena);
    struct worker *me = turn->me;

    if (number == NO_NODE)
        return decide(turn, LAZY_LIST_FULL, 19);
    nodes_of(turn->arena)[number] = (struct node){.key = me->key, .next = me->curr, .label_length = me->label_length};
    return set(turn, &me->spare, (uint16_t)number, 15);
}

static inline uint64_t link_in(struct turn *turn) {
    if (turn->arena->count >= turn->arena->nodes - 2)
        return LAZY_LIST_BROKEN_COUNT;
    turn->arena->count++;
    pred(turn)->next = turn->me->spare;
    return decide(turn, LAZY_LIST_YES, 19);
}

static inline uint64_t mark(struct turn *turn) {
    if (turn->arena->count == 0)
        return LAZY_LIST_BROKEN_COUNT;
    turn->arena->count--;
    curr(turn)->mark = 1;
    return decide(turn, LAZY_LIST_YES, 17);
}

static inline uint64_t link_past(struct turn *turn) {
    pred(turn)->next = turn->me->spare;
    return move_to(turn, 19);
}

static inline uint64_t finish(struct turn *turn) {
    unsigned answer = turn->me->answer;

    *turn->me = idle_worker;
    return reply(LAZY_LIST_FINISHED, answer, 0);
}

static inline uint64_t compare(struct turn *turn) {
    unsigned key = curr(turn)->key;

    if (key < turn->me->key)
        return move_to(turn, 24);
    return key == turn->me->key ? move_to(turn, 25) : decide(turn, LAZY_LIST_NO, 21);
}

enum { BROKEN = LAZY_LIST_BROKEN_RECORD };

/* Each stage: what the record must hold, and what is done. */
static uint64_t step(struct turn *turn) {
    struct worker *me = turn->me;

    switch (me->stage) {
    case 1: return updates(turn) ? set(turn, &me->pred, HEAD, 2) : BROKEN;
    case 2: return updates(turn) && has_pred(turn) ? follow(turn, pred(turn), &me->curr, 3) : BROKEN;
    case 3: return updates(turn) && has_curr(turn) ? move_to(turn, curr(turn)->key < me->key ? 4 : 6) : BROKEN;
    case 4: return updates(turn) && has_curr(turn) ? set(turn, &me->pred, me->curr, 5) : BROKEN;
    case 5: return updates(turn) && has_curr(turn) ? follow(turn, curr(turn), &me->curr, 3) : BROKEN;
    case 6: return updates(turn) && has_pred(turn) ? lock(turn, me->pred, 7) : BROKEN;
    case 7: return updates(turn) && has_curr(turn) ? lock(turn, me->curr, 8) : BROKEN;
    case 8: return updates(turn) && has_pred(turn) ? move_to(turn, pred(turn)->mark == 0 ? 9 : 11) : BROKEN;
    case 9: return updates(turn) && has_curr(turn) ? move_to(turn, curr(turn)->mark == 0 ? 10 : 11) : BROKEN;
    case 10: return updates(turn) && has_pred(turn) && has_curr(turn) ? move_to(turn, pred(turn)->next == me->curr ? 13 : 11) : BROKEN;
    case 11: return updates(turn) && has_pred(turn) ? unlock(turn, pred(turn), 12) : BROKEN;
    case 12: return updates(turn) && has_curr(turn) ? unlock(turn, curr(turn), 1) : BROKEN;
    case 13: return updates(turn) && has_curr(turn) ? judge(turn) : BROKEN;
    case 14: return adds(turn) && has_curr(turn) ? take_node(turn) : BROKEN;
    case 15: return adds(turn) && has_pred(turn) && has_spare(turn) ? link_in(turn) : BROKEN;
    case 16: return removes(turn) && has_curr(turn) ? mark(turn) : BROKEN;
    case 17: return removes(turn) && has_curr(turn) ? follow(turn, curr(turn), &me->spare, 18) : BROKEN;
    case 18: return removes(turn) && has_pred(turn) && has_spare(turn) ? link_past(turn) : BROKEN;
    case 19: return updates(turn) && has_answer(turn) && has_pred(turn) ? unlock(turn, pred(turn), 20) : BROKEN;
    case 20: return updates(turn) && has_answer(turn) && has_curr(turn) ? unlock(turn, curr(turn), 21) : BROKEN;
    case 21: return (updates(turn) || looks_up(turn)) && has_answer(turn) ? finish(turn) : BROKEN;
    case 22: return looks_up(turn) ? set(turn, &me->curr, HEAD, 23) : BROKEN;
    case 23: return looks_up(turn) && has_curr(turn) ? compare(turn) : BROKEN;
    case 24: return looks_up(turn) && has_curr(turn) ? follow(turn, curr(turn), &me->curr, 23) : BROKEN;
    case 25: return looks_up(turn) && has_curr(turn) ? decide(turn, curr(turn)->mark == 0 ? LAZY_LIST_YES : LAZY_LIST_NO, 21) : BROKEN;
    default: return BROKEN;
    }
}

uint64_t plain_list_turn(uint16_t *words, size_t length, uint16_t worker) {
    struct turn turn = {.arena = (struct arena *)words, .owner = (uint16_t)(worker + 1)};
    enum lazy_list_refusal refusal = check_arena(turn.arena, length);

    if (refusal != LAZY_LIST_ACCEPTED)
        return refusal;
    if (worker >= turn.arena->workers)
        return LAZY_LIST_NO_SUCH_WORKER;
    turn.me = &workers_of(turn.arena)[worker];
    if (turn.me->stage == 0)
        return reply(LAZY_LIST_IDLE, 0, 0);
    return is_key(turn.me->key) ? step(&turn) : BROKEN;
}
