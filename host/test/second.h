/* second.h: a second implementation, straight from the definitions: occurrences by cutting into shares, references by
 * spelling, codes by what two sets share, a scan that keeps all bytes taken, a rewriting that reads the whole text anew
 * before each step, an import whose text is read as a rule, LIKE without rules, turns by a walk from feed to feed. No masks,
 * no states. For small plans. */
#ifndef SECOND_H
#define SECOND_H

#include <stdbool.h>
#include <stddef.h>
#include <stdint.h>

#include "jazhuppe.h"

typedef struct {
    bool admits[256];                    /* the position's own set */
    bool code_fits[JAZHUPPE_CODES_MOST]; /* for each code, whether its set and the position's share a byte */
    bool optional, repeatable;
} second_position;

typedef struct {
    uint32_t number, place; /* 0, or the refusal of the rule or its codes */
    size_t count;
    second_position positions[JAZHUPPE_POSITIONS_MOST];
    size_t codes_count;
    uint8_t codes[JAZHUPPE_CODES_MOST];
} second_rule;

enum { SECOND_PLAN_MOST = 2048 };

/* A stored rule between the steps of its rewriting: it may be over the limit then, by two gaps that became dots. */
enum { SECOND_STORED_MOST = JAZHUPPE_RULE_MOST + 2 * 99 };

typedef struct {
    uint8_t text[SECOND_STORED_MOST];
    size_t length;
    unsigned front, back; /* the steps that were taken */
} second_rewriting;

/* A LIKE pattern may be so long, its text twice as long: well past the limit. */
enum { SECOND_PATTERN_MOST = 4096 };

/* The plain scan: the rule, the bytes taken, and whether it has finished. */
typedef struct {
    second_rule rule;
    uint8_t taken[SECOND_PLAN_MOST];
    size_t length;
    bool finished;
} second_scan;

second_rule second_read(const uint8_t *rule, size_t rule_len, uint32_t fold);

/* The same before outer gaps were retired: a stored rule, by 1 to 8 alone. */
second_rule second_read_stored(const uint8_t *rule, size_t rule_len, uint32_t fold);

/* All steps on a rule that 1 to 8 do not refuse. */
second_rewriting second_rewritten(const uint8_t *rule, size_t rule_len);

/* Reads codes into a rule that is not refused; or it is refused then. */
void second_read_codes(second_rule *rule, const uint8_t *codes, size_t codes_len, const uint8_t *sets, size_t sets_len);

/* Whether a byte of the text fits the position at `i`, counted from 0. */
bool second_fits(const second_rule *rule, size_t i, uint8_t c);

/* The bytes at the end that could still grow into a form. */
size_t second_held(const uint8_t *raw, size_t raw_len);

/* Decodes whole; out has room for raw_len bytes. And for each of the text's bytes the count of raw bytes up to and including
 * what gave it, a byte or a whole reference, where raws, which then has as much room, is not NULL. */
size_t second_decoded(const uint8_t *raw, size_t raw_len, uint8_t *out, uint32_t *raws);

/* What the plain scan has decoded so far, in the same way; each has room for all bytes taken. */
size_t second_text(const second_scan *scan, uint8_t *out, uint32_t *raws);

/* For each i up to the count of positions: whether some tail of the text can be cut into shares for the first i. */
void second_filled(const second_rule *rule, const uint8_t *text, size_t text_len, bool *filled);

/* Of any rule, without raw counts; the lists have room for the text's length. */
size_t second_ends(const second_rule *rule, const uint8_t *text, size_t text_len, uint32_t *ends);
size_t second_starts(const second_rule *rule, const uint8_t *text, size_t text_len, uint32_t *starts);

/* Whether SQL's LIKE accepts the name, case respected, by a pattern in which every \ stands before %, _ or \ . */
bool second_like(const uint8_t *pattern, size_t pattern_len, const uint8_t *name, size_t name_len);

/* Each of so many ends, and after it its raw count: that of the text's byte there. The pairs' count. */
size_t second_pairs(const uint32_t *ends, size_t count, const uint32_t *raws, uint32_t *pairs);

jazhuppe_prepared second_prepare(const uint8_t *rule, size_t rule_len, uint32_t fold);
jazhuppe_text second_rewrite(const uint8_t *rule, size_t rule_len, uint32_t fold, uint8_t *out, size_t out_len);
jazhuppe_text second_import_like(const uint8_t *pattern, size_t pattern_len, uint8_t *out, size_t out_len);
jazhuppe_prepared second_open(const uint8_t *rule, size_t rule_len, uint32_t fold, const uint8_t *codes,
                              size_t codes_len, const uint8_t *sets, size_t sets_len, second_scan *scan);
jazhuppe_answer second_feed(second_scan *scan, const uint8_t *piece, size_t piece_len, uint32_t *pairs, size_t pairs_len);
jazhuppe_answer second_finish(second_scan *scan, uint32_t *pairs, size_t pairs_len);
jazhuppe_answer second_decode(const uint8_t *raw, size_t raw_len, uint8_t *out, size_t out_len);
jazhuppe_answer second_search(const uint8_t *rule, size_t rule_len, uint32_t fold, const uint8_t *codes,
                              size_t codes_len, const uint8_t *sets, size_t sets_len, const uint8_t *text,
                              size_t text_len, uint32_t *starts, size_t starts_len);
jazhuppe_span second_show(const uint8_t *rule, size_t rule_len, uint32_t fold, const uint8_t *text, size_t text_len,
                          size_t start);
jazhuppe_covered second_covers(const uint8_t *rule, size_t rule_len, uint32_t fold, const uint8_t *name, size_t name_len);
jazhuppe_offered second_offer(uint32_t waiting, uint32_t last, uint32_t feed);
jazhuppe_served second_turn(uint32_t waiting, uint32_t last);

#endif
