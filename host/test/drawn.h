/* drawn.h: draws a rule, codes for it, and a plan in which it occurs, whole and in part; by numbers that a seed decides. */
#ifndef DRAWN_H
#define DRAWN_H

#include <stdbool.h>
#include <stddef.h>
#include <stdint.h>

#include "jazhuppe.h"
#include "random.h"
#include "second.h"

enum {
    RULE_ROOM = JAZHUPPE_RULE_MOST + 80,
    CODES_ROOM = 300,
    SETS_MOST = JAZHUPPE_CODES_MOST + 3,
    SETS_ROOM = SETS_MOST * JAZHUPPE_SET_BYTES,
    PLAN_MOST = 1536
};

typedef struct {
    uint8_t stored[RULE_ROOM], rule[RULE_ROOM]; /* as it was drawn, and as it is tried: most often without outer gaps */
    size_t stored_len, rule_len;
    uint32_t fold;
    uint8_t codes[CODES_ROOM], sets[SETS_ROOM];
    size_t codes_len, sets_len;
    uint8_t plan[PLAN_MOST];
    size_t plan_len, plan_most;
    second_rule read;
} drawn_case;

extern random_source source;

/* What was drawn last. */
extern drawn_case now;

/* 0 to most - 1; and whether it is the one of n. */
uint32_t below(uint32_t most);
bool one_in(uint32_t n);

/* A rule, seldom one that is refused, as read with its codes; and a plan for it. */
void draw_rule_and_plan(void);

uint8_t any_letter(void);

/* A byte that fits the position at `i`, counted from 0; most often a letter. */
uint8_t any_that_fits(const second_rule *rule, size_t i);

/* Writes more of the rule or the plan, or a byte into the set of the code at `k`. */
void put_text(const char *s);
void plan_text(const char *s);
void put_in_set(size_t k, uint8_t x);

/* Keeps the rule as the stored one too. */
void store_rule(void);

/* A list's or buffer's length: what is needed, one less, none, or more. */
size_t list_length(size_t needed);

/* Each in its room of testing.h. */
const uint8_t *lend_rule(void);
const uint8_t *lend_codes(void);
const uint8_t *lend_sets(void);

#endif
