/* testing.c: see testing.h. */
#define _DEFAULT_SOURCE
#include "testing.h"

#include <stdarg.h>
#include <stdio.h>
#include <stdlib.h>
#include <string.h>
#include <sys/mman.h>
#include <unistd.h>

#include "jazhuppe.h"

static char subject[256];
static unsigned passed, failed;
static bool holding;

void about(const char *format, ...)
{
    va_list args;

    va_start(args, format);
    vsnprintf(subject, sizeof subject, format, args);
    va_end(args);
}

void check(bool holds, const char *what, const char *file, int line)
{
    if (holds)
        return;
    printf("%s:%d: %s: %s does not hold\n", file, line, subject, what);
    holding = false;
}

void run(const char *name, void (*test)(void))
{
    holding = true;
    about("%s", name);
    test();
    printf("%s %s\n", holding ? "ok" : "FAILED", name);
    fflush(stdout);
    passed += holding;
    failed += !holding;
}

int finished(const char *program)
{
    printf("%s: %u ok, %u failed\n", program, passed, failed);
    return failed == 0 ? EXIT_SUCCESS : EXIT_FAILURE;
}

bool lent_in_front;

void run_both_ways(void (*tests)(void))
{
    lent_in_front = false;
    tests();
    puts("again, with a page that nobody may touch before each slice:");
    lent_in_front = true;
    tests();
}

/* How much is looked at around a slice. */
enum { MARGIN = 64 };

static size_t page(void)
{
    return (size_t)sysconf(_SC_PAGESIZE);
}

static void *mapped(size_t bytes, int protection)
{
    void *memory = mmap(NULL, bytes, protection, MAP_PRIVATE | MAP_ANONYMOUS | MAP_NORESERVE, -1, 0);

    if (memory == MAP_FAILED) {
        perror("mmap");
        exit(2);
    }
    return memory;
}

void *lazy_memory(size_t bytes)
{
    return mapped(bytes, PROT_READ | PROT_WRITE);
}

void *untouchable_memory(size_t bytes)
{
    return mapped(bytes, PROT_NONE);
}

lent lent_room(size_t most)
{
    size_t size = (most + page()) / page() * page();
    uint8_t *memory = lazy_memory(size + 2 * page());
    lent room;

    memset(&room, 0, sizeof room);
    room.first = memory + page();
    room.end = room.first + size;
    room.copy = malloc(size);
    if (room.copy == NULL || mprotect(memory, page(), PROT_NONE) != 0 || mprotect(room.end, page(), PROT_NONE) != 0) {
        perror("lent_room");
        exit(2);
    }
    return room;
}

lent rule_room, codes_room, sets_room, text_room, scan_room, list_room;

int run_in_small_rooms(const char *program, void (*tests)(void))
{
    rule_room = lent_room(2048);
    codes_room = lent_room(512);
    sets_room = lent_room(512);
    text_room = lent_room(2048);
    scan_room = lent_room(16384);
    list_room = lent_room(8192);
    run_both_ways(tests);
    return finished(program);
}

/* Where what is looked at begins, and ends. */
static uint8_t *looked_from(const lent *room)
{
    return room->slice - room->first < MARGIN ? room->first : room->slice - MARGIN;
}

static uint8_t *looked_to(const lent *room)
{
    uint8_t *end = room->slice + room->bytes;

    return room->end - end < MARGIN ? room->end : end + MARGIN;
}

void lent_anew(lent *room)
{
    memcpy(room->copy, looked_from(room), (size_t)(looked_to(room) - looked_from(room)));
}

static void place(lent *room, size_t bytes)
{
    if (bytes > (size_t)(room->end - room->first))
        abort();
    room->slice = lent_in_front ? room->first : room->end - bytes;
    room->bytes = bytes;
    memset(looked_from(room), 0xA5, (size_t)(looked_to(room) - looked_from(room)));
}

void *lend(lent *room, size_t bytes)
{
    place(room, bytes);
    lent_anew(room);
    return room->slice;
}

void *lend_bytes(lent *room, const void *from, size_t bytes)
{
    place(room, bytes);
    if (bytes > 0)
        memcpy(room->slice, from, bytes);
    lent_anew(room);
    return room->slice;
}

bool untouched_past(const lent *room, size_t bytes)
{
    const uint8_t *from = looked_from(room), *past = room->slice + bytes;

    return memcmp(from, room->copy, (size_t)(room->slice - from)) == 0 &&
           memcmp(past, room->copy + (past - from), (size_t)(looked_to(room) - past)) == 0;
}

bool untouched(const lent *room)
{
    return untouched_past(room, 0);
}

code_list no_codes(void)
{
    code_list list;

    memset(&list, 0, sizeof list);
    return list;
}

void name_code(code_list *list, uint8_t code, const char *set, size_t bytes)
{
    if (list->sets_len + JAZHUPPE_SET_BYTES > sizeof list->sets)
        abort();
    for (size_t i = 0; i < bytes; i++) {
        uint8_t x = (uint8_t)set[i];

        list->sets[list->sets_len + x / 8] |= (uint8_t)(1 << x % 8);
    }
    list->codes[list->codes_len++] = code;
    list->sets_len += JAZHUPPE_SET_BYTES;
}
