#include "arena.h"
#include "plain_list.h"

enum { FIRST_STAGE = 1, FIRST_LOOK_UP_STAGE = 22, LAST_STAGE = 25, MAX_END = 65535 };

static bool is_call(unsigned operation, unsigned key, unsigned label_length) {
    if (operation < LAZY_LIST_ADD || operation > LAZY_LIST_CONTAINS || !is_key(key))
        return false;
    if (operation == LAZY_LIST_ADD)
        return label_length >= 1 && key + label_length <= MAX_END;
    return label_length == 0;
}

uint64_t plain_list_start(uint16_t *words, size_t length, uint16_t worker, uint16_t operation, uint16_t key, uint16_t label_length) {
    struct arena *arena = (struct arena *)words;
    enum lazy_list_refusal refusal = check_arena(arena, length);
    struct worker *me;

    if (refusal != LAZY_LIST_ACCEPTED)
        return refusal;
    if (worker >= arena->workers)
        return LAZY_LIST_NO_SUCH_WORKER;
    me = &workers_of(arena)[worker];
    if (me->stage > LAST_STAGE)
        return LAZY_LIST_BROKEN_RECORD;
    if (me->stage != 0)
        return LAZY_LIST_BUSY;
    if (!is_call(operation, key, label_length))
        return LAZY_LIST_BAD_CALL;
    *me = idle_worker;
    me->stage = operation == LAZY_LIST_CONTAINS ? FIRST_LOOK_UP_STAGE : FIRST_STAGE;
    me->operation = operation;
    me->key = key;
    me->label_length = label_length;
    return LAZY_LIST_ACCEPTED;
}
