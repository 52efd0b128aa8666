/* testing.h: checks that are counted, and lent memory between two pages that nobody may touch. */
#ifndef TESTING_H
#define TESTING_H

#include <stdbool.h>
#include <stddef.h>
#include <stdint.h>

/* Runs one test and prints `ok NAME`, or what failed in it. */
void run(const char *name, void (*test)(void));

/* Prints the count; the program's exit status. */
int finished(const char *program);

/* What the next checks are about, printed with a failure. */
void about(const char *format, ...);

/* A failure is printed and counted. */
void check(bool holds, const char *what, const char *file, int line);
#define CHECK(holds) check((holds), #holds, __FILE__, __LINE__)

/* Memory that takes none until it is written; or that nobody may touch. */
void *lazy_memory(size_t bytes);
void *untouchable_memory(size_t bytes);

/* A room for one lent slice at a time. The pages before and after it may be neither read nor written. */
typedef struct {
    uint8_t *first, *end;
    uint8_t *slice;
    size_t bytes;
    uint8_t *copy;
} lent;

/* Slices begin directly after the first such page, instead of ending directly before the second. */
extern bool lent_in_front;

lent lent_room(size_t most);

/* A room for each slice that a call may be lent. */
extern lent rule_room, codes_room, sets_room, text_room, scan_room, list_room;

/* What an opening and a search are lent where no codes are named. */
#define NO_CODES NULL, 0, NULL, 0

/* Codes and their sets, with room for more than may be named. */
typedef struct {
    size_t codes_len, sets_len;
    uint8_t codes[300], sets[320];
} code_list;

code_list no_codes(void);

/* Adds a code, with a set of so many bytes. */
void name_code(code_list *list, uint8_t code, const char *set, size_t bytes);

/* Runs the tests on slices that end directly before such a page, and again on slices that begin directly after one. */
void run_both_ways(void (*tests)(void));

/* The same in rooms for short rules, texts and lists; the program's exit status. */
int run_in_small_rooms(const char *program, void (*tests)(void));

/* Lends so many bytes of it, filled with a pattern. */
void *lend(lent *room, size_t bytes);

/* Lends a copy of these bytes. */
void *lend_bytes(lent *room, const void *from, size_t bytes);

/* Takes what stands there now as what was lent. */
void lent_anew(lent *room);

/* Whether the slice, but for so many bytes at its beginning, and what lies around it are as they were lent. */
bool untouched_past(const lent *room, size_t bytes);
bool untouched(const lent *room);

#endif
