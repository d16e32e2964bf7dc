/*
 * The list in plain C, for the benchmark: start and turn of include/lazy_list.h, with the same words, replies and refusals. What is wrong
 * with the words is refused; pointer and length are believed.
 */
#ifndef PLAIN_LIST_H
#define PLAIN_LIST_H

#include <stddef.h>
#include <stdint.h>

/* As lazy_list_start. */
uint64_t plain_list_start(uint16_t *words, size_t length, uint16_t worker, uint16_t operation, uint16_t key, uint16_t label_length);

/* As lazy_list_turn. */
uint64_t plain_list_turn(uint16_t *words, size_t length, uint16_t worker);

#endif
