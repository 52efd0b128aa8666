#include "bench.h"

#include <stdio.h>
#include <stdlib.h>
#include <string.h>

void die(const char *what, const char *about)
{
    fflush(stdout);
    fprintf(stderr, "bench: %s: %s\n", about, what);
    exit(1);
}

void *need(void *memory)
{
    if (!memory)
        die("out of memory", "allocation");
    return memory;
}

/* Written once, so that no reading pays for its first touch. */
bytes room(size_t length)
{
    bytes r = {need(malloc(length + 1)), length};
    memset(r.at, 1, length + 1);
    return r;
}

static uint64_t scattered(uint64_t x)
{
    x = (x ^ (x >> 30)) * 0xbf58476d1ce4e5b9u;
    x = (x ^ (x >> 27)) * 0x94d049bb133111ebu;
    return x ^ (x >> 31);
}

void add(tally *t, const uint32_t *places, size_t n)
{
    t->count += n;
    if (t->summing)
        for (size_t i = 0; i < n; i++)
            t->sum += scattered(places[i] + 1u);
}

int same(tally a, tally b)
{
    return a.count == b.count && a.sum == b.sum;
}
