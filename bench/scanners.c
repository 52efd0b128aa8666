/* The library, and a mere copy of each piece. */
#include "bench.h"
#include "jazhuppe.h"

#include <stdlib.h>
#include <string.h>

static uint32_t ends[JAZHUPPE_FEED_LIST(LONG_PIECE)];

static void accepted(uint32_t number, const char *call)
{
    if (number)
        die("refused", call);
}

static void *open_scan(const rule *r)
{
    uint64_t *opened = need(calloc(JAZHUPPE_SCAN_WORDS, sizeof *opened));
    accepted(jazhuppe_open((const uint8_t *)r->text, strlen(r->text), 0, NULL, 0, NULL, 0, opened, JAZHUPPE_SCAN_WORDS).number, r->text);
    return opened;
}

/* Adds what a call reported: the ends alone, as nobody else here has raw counts. */
static void add_ends(tally *found, uint32_t count)
{
    for (uint32_t i = 0; found->summing && i < count; i++)
        ends[i] = ends[JAZHUPPE_PAIR * i];
    add(found, ends, count);
}

/* The opened value is kept for the next reading, so each one works on a copy. */
static void scan(void *opened, bytes text, size_t piece, tally *found)
{
    uint64_t value[JAZHUPPE_SCAN_WORDS];
    memcpy(value, opened, sizeof value);
    for (size_t at = 0; at < text.length; at += piece) {
        size_t k = text.length - at < piece ? text.length - at : piece;
        jazhuppe_answer a = jazhuppe_feed(value, JAZHUPPE_SCAN_WORDS, text.at + at, k, ends, JAZHUPPE_FEED_LIST(k));
        accepted(a.number, "feed");
        add_ends(found, a.count);
    }
    jazhuppe_answer a = jazhuppe_finish(value, JAZHUPPE_SCAN_WORDS, ends, JAZHUPPE_FINISH_LIST);
    accepted(a.number, "finish");
    add_ends(found, a.count);
}

const scanner jazhuppe_scanner = {"Jazhuppe", open_scan, scan, free};

static void *open_copy(const rule *r)
{
    (void)r;
    return need(malloc(LONG_PIECE));
}

static void copy(void *opened, bytes text, size_t piece, tally *found)
{
    (void)found;
    for (size_t at = 0; at < text.length; at += piece) {
        memcpy(opened, text.at + at, text.length - at < piece ? text.length - at : piece);
        __asm__ volatile("" ::: "memory"); /* the copy is not left out though nobody reads it */
    }
}

const scanner copy_scanner = {"memcpy", open_copy, copy, free};
