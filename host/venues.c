/* venues.c: an example of a host whose plans arrive together: `venues RULE FILE [RULE FILE]...`, one to eight pairs. Each
 * FILE is a feed with a scan of its own, and a dispatcher says whose piece is next, so that a FIFO whose writer is slow
 * holds nobody up. It prints FILE:END for each end, as soon as it is found. See jazhuppe_turn.3. */
#define _POSIX_C_SOURCE 200809L
#define _FILE_OFFSET_BITS 64
#include <errno.h>
#include <fcntl.h>
#include <inttypes.h>
#include <poll.h>
#include <signal.h>
#include <stdbool.h>
#include <stdio.h>
#include <string.h>
#include <unistd.h>

#include "jazhuppe.h"

/* As grep's. */
enum { FOUND = 0, NONE = 1, TROUBLE = 2 };

/* Short, so that nobody waits long for the others' turns. */
enum { PIECE = 512 };

/* A plan, its scan, and the piece that waits for its turn: the dispatcher keeps no bytes. */
typedef struct {
    const char *name;
    int descriptor; /* -1 where it is closed, and nothing of it waits then */
    uint64_t scan[JAZHUPPE_SCAN_WORDS];
    uint8_t piece[PIECE];
    size_t length;
} feed;

/* The dispatcher's two numbers, each call handed what the last one left; and the feeds, by their numbers. */
typedef struct {
    uint32_t waiting, last;
    feed feeds[JAZHUPPE_FEEDS];
    uint32_t count;
} venues;

/* Trouble in one is trouble in both; else something found in one is. */
static int both(int a, int b)
{
    if (a == TROUBLE || b == TROUBLE)
        return TROUBLE;
    return a == FOUND || b == FOUND ? FOUND : NONE;
}

static int trouble(const char *name, const char *words)
{
    fprintf(stderr, "venues: %s: %s\n", name, words);
    return TROUBLE;
}

/* ---- lines */

/* What went wrong when a line was first lost, or 0. */
static int write_error;

static void flush_lines(void)
{
    if (fflush(stdout) != 0 && write_error == 0)
        write_error = errno;
}

/* Nothing printed may be lost without a word; a reader that has gone away needs none. */
static int closed(int status)
{
    flush_lines();
    if (write_error != 0 && write_error != EPIPE)
        trouble("standard output", strerror(write_error));
    return write_error == 0 ? status : TROUBLE;
}

/* ---- feeds */

/* Ends this feed alone, whatever it came to: the others go on. */
static int close_feed(feed *f, int status)
{
    if (f->descriptor >= 0)
        close(f->descriptor);
    f->descriptor = -1;
    return status;
}

static int refused(feed *f, uint32_t number)
{
    fprintf(stderr, "venues: %s: refused %" PRIu32 "\n", f->name, number);
    return close_feed(f, TROUBLE);
}

/* Prints a scan call's ends, without their raw counts: the exit status that they come to. */
static int take_ends(feed *f, jazhuppe_answer a, const uint32_t *ends)
{
    if (a.number != 0)
        return refused(f, a.number);
    for (uint32_t i = 0; i < a.count && write_error == 0; i++) {
        printf("%s:%" PRIu32 "\n", f->name, ends[JAZHUPPE_PAIR * i]);
        if (ferror(stdout))
            write_error = errno;
    }
    return a.count > 0 ? FOUND : NONE;
}

static int feed_piece(feed *f)
{
    uint32_t ends[JAZHUPPE_FEED_LIST(PIECE)];
    size_t list = JAZHUPPE_FEED_LIST(f->length);

    return take_ends(f, jazhuppe_feed(f->scan, JAZHUPPE_SCAN_WORDS, f->piece, f->length, ends, list), ends);
}

/* A finish is not offered: every piece of the feed has been served by then. */
static int finish_feed(feed *f)
{
    uint32_t ends[JAZHUPPE_FINISH_LIST];
    jazhuppe_answer a = jazhuppe_finish(f->scan, JAZHUPPE_SCAN_WORDS, ends, JAZHUPPE_FINISH_LIST);

    return close_feed(f, take_ends(f, a, ends));
}

/* ---- offers and turns */

/* The piece stays where it is until its turn. Only a feed that has none waiting is read, so that 18 does not come up. */
static int offer_piece(venues *v, uint32_t number)
{
    jazhuppe_offered o = jazhuppe_offer(v->waiting, v->last, number);

    v->waiting = o.waiting;
    v->last = o.last;
    return o.number == 0 ? NONE : refused(&v->feeds[number], o.number);
}

/* Whether the scan takes the piece or refuses it, it has been served. */
static int take_turn(venues *v)
{
    jazhuppe_served s = jazhuppe_turn(v->waiting, v->last);

    v->waiting = s.waiting;
    v->last = s.last;
    return s.served == 0 ? NONE : feed_piece(&v->feeds[s.feed]);
}

/* Reads what has arrived of a feed, and offers it. */
static int take_in(venues *v, uint32_t number)
{
    feed *f = &v->feeds[number];
    ssize_t n = read(f->descriptor, f->piece, PIECE);

    if (n < 0 && (errno == EINTR || errno == EAGAIN))
        return NONE;
    if (n < 0)
        return close_feed(f, trouble(f->name, strerror(errno)));
    if (n == 0)
        return finish_feed(f);
    f->length = (size_t)n;
    return offer_piece(v, number);
}

/* Finds out which feeds have something to read, of those that have no piece waiting. It stays until one has only where
 * nobody waits, and shows before that what has been found. */
static int poll_feeds(const venues *v, struct pollfd *polled)
{
    bool stays = v->waiting == 0;

    for (uint32_t i = 0; i < v->count; i++) {
        bool waits = (v->waiting >> i & 1) != 0;

        /* poll leaves -1 out. */
        polled[i] = (struct pollfd){.fd = waits ? -1 : v->feeds[i].descriptor, .events = POLLIN};
    }
    if (stays)
        flush_lines();
    if (poll(polled, v->count, stays && write_error == 0 ? -1 : 0) < 0 && errno != EINTR)
        return trouble("poll", strerror(errno));
    return NONE;
}

static bool some_open(const venues *v)
{
    for (uint32_t i = 0; i < v->count; i++)
        if (v->feeds[i].descriptor >= 0)
            return true;
    return false;
}

static int serve(venues *v)
{
    struct pollfd polled[JAZHUPPE_FEEDS];
    int status = NONE;

    while (some_open(v) && write_error == 0) {
        if (poll_feeds(v, polled) == TROUBLE)
            return TROUBLE;
        for (uint32_t i = 0; i < v->count; i++)
            if (polled[i].revents != 0)
                status = both(status, take_in(v, i));
        status = both(status, take_turn(v));
    }
    return status;
}

/* ---- openings */

static int open_rule(feed *f, const char *rule)
{
    jazhuppe_prepared p =
        jazhuppe_open((const uint8_t *)rule, strlen(rule), 0, NULL, 0, NULL, 0, f->scan, JAZHUPPE_SCAN_WORDS);

    if (p.number == 0)
        return NONE;
    fprintf(stderr, "venues: %s: rule refused %" PRIu32 " at %" PRIu32 "\n", f->name, p.number, p.place);
    return TROUBLE;
}

/* Without O_NONBLOCK the opening of a FIFO would stay until its writer comes. */
static int open_file(feed *f)
{
    f->descriptor = open(f->name, O_RDONLY | O_NONBLOCK);
    return f->descriptor < 0 ? trouble(f->name, strerror(errno)) : NONE;
}

int main(int argc, char **argv)
{
    static venues v = {.waiting = 0, .last = JAZHUPPE_LAST_AT_OPENING};
    int status = NONE;

    if (argc < 3 || argc % 2 == 0 || argc > 1 + 2 * JAZHUPPE_FEEDS) {
        fputs("usage: venues RULE FILE [RULE FILE]...\nOne to eight pairs.\n", stderr);
        return TROUBLE;
    }
    signal(SIGPIPE, SIG_IGN);
    for (; argv[1 + 2 * v.count] != NULL; v.count++) {
        feed *f = &v.feeds[v.count];

        f->name = argv[2 + 2 * v.count];
        if (open_rule(f, argv[1 + 2 * v.count]) == TROUBLE)
            return TROUBLE;
    }
    for (uint32_t i = 0; i < v.count; i++)
        status = both(status, open_file(&v.feeds[i]));
    return closed(both(status, serve(&v)));
}
