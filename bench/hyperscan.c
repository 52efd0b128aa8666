/* Hyperscan in streaming mode, every end reported. */
#include "bench.h"

#include <hs.h>
#include <stdio.h>
#include <stdlib.h>

typedef struct {
    hs_database_t *database;
    hs_scratch_t *scratch;
} opened_rule;

typedef struct {
    uint32_t at[LONG_PIECE];
    size_t n;
} ends;

static void accepted(hs_error_t e, const char *call)
{
    if (e != HS_SUCCESS)
        die("Hyperscan refused", call);
}

static void *open_rule(const rule *r)
{
    opened_rule *o = need(calloc(1, sizeof *o));
    hs_compile_error_t *error;
    if (hs_compile(r->pattern, HS_FLAG_DOTALL, HS_MODE_STREAM, NULL, &o->database, &error) != HS_SUCCESS) {
        fprintf(stderr, "bench: Hyperscan refused %s: %s\n", r->pattern, error->message);
        hs_free_compile_error(error);
        free(o);
        return NULL;
    }
    accepted(hs_alloc_scratch(o->database, &o->scratch), "scratch");
    return o;
}

static int store(unsigned id, unsigned long long from, unsigned long long to, unsigned flags, void *context)
{
    ends *e = context;
    (void)id, (void)from, (void)flags;
    e->at[e->n++] = (uint32_t)to;
    return 0;
}

static void scan(void *opened, bytes text, size_t piece, tally *found)
{
    static ends e;
    opened_rule *o = opened;
    hs_stream_t *stream;
    accepted(hs_open_stream(o->database, 0, &stream), "open");
    for (size_t at = 0; at < text.length; at += piece) {
        size_t k = text.length - at < piece ? text.length - at : piece;
        e.n = 0;
        accepted(hs_scan_stream(stream, (const char *)text.at + at, (unsigned)k, 0, o->scratch, store, &e), "scan");
        add(found, e.at, e.n);
    }
    e.n = 0;
    accepted(hs_close_stream(stream, o->scratch, store, &e), "close");
    add(found, e.at, e.n);
}

static void close_rule(void *opened)
{
    opened_rule *o = opened;
    hs_free_scratch(o->scratch);
    hs_free_database(o->database);
    free(o);
}

const scanner hyperscan_scanner = {"Hyperscan", open_rule, scan, close_rule};
