#include "bench.h"

/*
 * In a pattern `.` is any byte, newline included. A gap {a,b} of a rule is .{a,b} there: it stands for itself,
 * not for a count of the element before it.
 */
const rule rules[RULES] = {
    {"R1", "Row A&B [0-9]+", "Row A&B [0-9]+", 1.2, .17},
    {"R2", "Wheelchair bay No 17", "Wheelchair bay No 17", .45, .13},
    {"R3", "[A-Z][a-z]+ {0,9}[0-9]+", "[A-Z][a-z]+ .{0,9}[0-9]+", 1.1, 0},
    {"R4", "Ro?w? ?[0-9]?[0-9]?[0-9]", "Ro?w? ?[0-9]?[0-9]?[0-9]", 2.0, 1.0},
    {"R5", "a.*b", "a.*b", .2, 0},
    {"R6", "x", "x", .6, 0},
    {"R7", "[A-Z][a-z][a-z]+,? ?Row [A-Z0-9][0-9]?{1,30}[0-9]?[0-9] ?t?o? [0-9]?[0-9], [0-9]?[0-9]?[0-9]\\.[0-9][0-9] [A-Z][A-Z][A-Z]\n",
     "[A-Z][a-z][a-z]+,? ?Row [A-Z0-9][0-9]?.{1,30}[0-9]?[0-9] ?t?o? [0-9]?[0-9], [0-9]?[0-9]?[0-9]\\.[0-9][0-9] [A-Z][A-Z][A-Z]\n", 1.1, 0},
    {"R8", "[0-9]+[.,]?[0-9]?[0-9]? ?E?U?R", "[0-9]+[.,]?[0-9]?[0-9]? ?E?U?R", .7, 0},
};

const rule plus_rule = {"`Row A\\+B [0-9]+`", "Row A\\+B [0-9]+", "Row A\\+B [0-9]+", 0, 0};
const rule stuck_rule = {"`[ab]+z`", "[ab]+z", "[ab]+z", 0, 0};
const rule absent_rule = {"`Row .*#`", "Row .*#", "Row .*#", 0, 0};

/* Two blocks of optional positions, one position apart. */
const rule near_blocks_rule = {"`[0-9]+[.,]?[0-9] ?E?U?R`", "[0-9]+[.,]?[0-9] ?E?U?R", "[0-9]+[.,]?[0-9] ?E?U?R", 0, 0};

/*
 * Over 63 positions. Their bytes stand in the plan: those of 100 some thousand times in 64 MiB, those of 240 once in the first MiB, the
 * first 100 of them as often as those.
 */
#define DOORS ", doors open half an hour before the show, latecomers wait for the interval"
#define LITERAL "by the aisle and reserved" DOORS
#define NINTHS_OF_100 \
    "by the ai?sle and r?eserved, ?doors ope?n half an? hour bef?ore the s?how, late?comers wa?it for th?e interva?l"
#define NINTHS_OF_240 \
    "by the ai?sle and r?eserved, ?doors ope?n half an? hour bef?ore the s?how, late?comers wa?it for th?e interva?l\n" \
    "Left Bo?x: reserv?ed and by? the aisl?e, doors ?open half? an hour ?before th?e show, l?atecomers? wait for? the inte?rval\n" \
    "Balc?ony: rest?ricted vi?ew and"

const rule long_rules[LONG_RULES] = {
    {"100 bytes", LITERAL, LITERAL, 0, 0},
    {"100 bytes, every ninth optional", NINTHS_OF_100, NINTHS_OF_100, 0, 0},
    {"240 bytes, every ninth optional", NINTHS_OF_240, NINTHS_OF_240, 0, 0},
    {"`R{0,90}S{0,90}H`", "R{0,90}S{0,90}H", "R.{0,90}S.{0,90}H", 0, 0},
    {"`R{70,70}S`", "R{70,70}S", "R.{70}S", 0, 0},
    {"`Row .*` and 80 bytes", "Row .*exit" DOORS "\n", "Row .*exit" DOORS "\n", 0, 0},
};
