/* turns.c: offers and turns. Answers that are written out; every state of a dispatcher, held against the second
 * implementation; and lists of random events over eight scans, where each feed's calls are held against the same calls made
 * alone. `turns [SEED [LISTS]]` draws the lists. A difference in one of them says where it is and ends the run. */
#include <stdio.h>
#include <stdlib.h>
#include <string.h>

#include "drawn.h"
#include "jazhuppe.h"
#include "scan_layout.h"
#include "second.h"
#include "testing.h"

/* ---- answers that are written out */

static bool offered(jazhuppe_offered o, uint32_t number, uint32_t waiting, uint32_t last)
{
    return o.number == number && o.place == 0 && o.waiting == waiting && o.last == last;
}

static bool served(jazhuppe_served s, uint32_t feed, uint32_t waiting, uint32_t last)
{
    return s.served == 1 && s.feed == feed && s.waiting == waiting && s.last == last;
}

static bool nobody(jazhuppe_served s, uint32_t waiting, uint32_t last)
{
    return s.served == 0 && s.feed == 0 && s.waiting == waiting && s.last == last;
}

static void test_opening(void)
{
    CHECK(JAZHUPPE_FEEDS == 8 && JAZHUPPE_LAST_AT_OPENING == 7 && JAZHUPPE_OFFER == 18);
    CHECK(nobody(jazhuppe_turn(0, 7), 0, 7));
    CHECK(offered(jazhuppe_offer(0, 7, 0), 0, 0x01, 7));
    CHECK(offered(jazhuppe_offer(0, 7, 7), 0, 0x80, 7));
    CHECK(served(jazhuppe_turn(0x01, 7), 0, 0, 0));
    CHECK(served(jazhuppe_turn(0x20, 7), 5, 0, 5));
    /* Feed 7 counts as last served: all others go before it. */
    CHECK(served(jazhuppe_turn(0x81, 7), 0, 0x80, 0));
    CHECK(served(jazhuppe_turn(0xC0, 7), 6, 0x80, 6));
    CHECK(served(jazhuppe_turn(0x80, 7), 7, 0, 7));
}

static void test_nobody(void)
{
    static const uint32_t lasts[] = {0, 3, 7, 8, 200, UINT32_MAX};

    for (size_t i = 0; i < sizeof lasts / sizeof lasts[0]; i++) {
        about("last %lu", (unsigned long)lasts[i]);
        CHECK(nobody(jazhuppe_turn(0, lasts[i]), 0, lasts[i]));
        CHECK(nobody(jazhuppe_turn(0x100, lasts[i]), 0x100, lasts[i]));
        CHECK(nobody(jazhuppe_turn(0x80000000, lasts[i]), 0x80000000, lasts[i]));
        CHECK(nobody(jazhuppe_turn(0xFFFFFF00, lasts[i]), 0xFFFFFF00, lasts[i]));
    }
}

/* The last served goes last, and is served again where it is alone. */
static void test_served_again(void)
{
    CHECK(served(jazhuppe_turn(0x01, 0), 0, 0, 0));
    CHECK(served(jazhuppe_turn(0x08, 3), 3, 0, 3));
    CHECK(served(jazhuppe_turn(0x80, 7), 7, 0, 7));
    CHECK(served(jazhuppe_turn(0x18, 3), 4, 0x08, 4));
    CHECK(served(jazhuppe_turn(0x0C, 3), 2, 0x08, 2));
    CHECK(served(jazhuppe_turn(0x88, 7), 3, 0x80, 3));
}

static void test_round(void)
{
    CHECK(served(jazhuppe_turn(0xFF, 7), 0, 0xFE, 0));
    CHECK(served(jazhuppe_turn(0xFE, 0), 1, 0xFC, 1));
    CHECK(served(jazhuppe_turn(0xFC, 1), 2, 0xF8, 2));
    CHECK(served(jazhuppe_turn(0xF8, 2), 3, 0xF0, 3));
    CHECK(served(jazhuppe_turn(0xF0, 3), 4, 0xE0, 4));
    CHECK(served(jazhuppe_turn(0xE0, 4), 5, 0xC0, 5));
    CHECK(served(jazhuppe_turn(0xC0, 5), 6, 0x80, 6));
    CHECK(served(jazhuppe_turn(0x80, 6), 7, 0x00, 7));
    CHECK(nobody(jazhuppe_turn(0x00, 7), 0x00, 7));
    /* Where feed 0 has offered again meanwhile, it is the next after 7. */
    CHECK(served(jazhuppe_turn(0x81, 6), 7, 0x01, 7));
    CHECK(served(jazhuppe_turn(0x01, 7), 0, 0x00, 0));
}

/* Everyone offers again as soon as it is served: 0, 1, .. 7, 0, and so on. */
static void test_round_again(void)
{
    jazhuppe_served s = {0, 0, 0xFF, 7};

    for (uint32_t turn = 0; turn < 24; turn++) {
        jazhuppe_offered o;

        about("turn %lu", (unsigned long)turn);
        s = jazhuppe_turn(s.waiting, s.last);
        CHECK(served(s, turn % 8, 0xFF - ((uint32_t)1 << turn % 8), turn % 8));
        o = jazhuppe_offer(s.waiting, s.last, s.feed);
        CHECK(offered(o, 0, 0xFF, turn % 8));
        s.waiting = o.waiting;
        s.last = o.last;
    }
}

static void test_not_starved(void)
{
    CHECK(served(jazhuppe_turn(0x03, 7), 0, 0x02, 0));
    CHECK(offered(jazhuppe_offer(0x02, 0, 0), 0, 0x03, 0));
    CHECK(served(jazhuppe_turn(0x03, 0), 1, 0x01, 1));
    CHECK(served(jazhuppe_turn(0x01, 1), 0, 0x00, 0));
}

/* The longest that a piece waits: its feed was served last, and the seven others offer again and again. */
static void test_eighth_turn(void)
{
    for (uint32_t f = 0; f < 8; f++) {
        jazhuppe_served s = {0, 0, 0xFF, f};
        uint32_t turns = 0;

        about("feed %lu", (unsigned long)f);
        do {
            s = jazhuppe_turn(s.waiting, s.last);
            turns++;
            CHECK(s.served == 1);
            if (s.feed != f)
                s.waiting = jazhuppe_offer(s.waiting, s.last, s.feed).waiting;
        } while (s.feed != f && turns < 100);
        CHECK(turns == 8);
        CHECK(s.last == f && s.waiting == 0xFF - ((uint32_t)1 << f));
    }
}

static void test_offer_twice(void)
{
    CHECK(offered(jazhuppe_offer(0x00, 7, 3), 0, 0x08, 7));
    CHECK(offered(jazhuppe_offer(0x08, 7, 3), 18, 0x08, 7));
    CHECK(offered(jazhuppe_offer(0x08, 7, 2), 0, 0x0C, 7));
    CHECK(offered(jazhuppe_offer(0xFF, 200, 0), 18, 0xFF, 200));
    CHECK(served(jazhuppe_turn(0x08, 7), 3, 0x00, 3));
    CHECK(offered(jazhuppe_offer(0x00, 3, 3), 0, 0x08, 3));
}

static void test_offer_above_7(void)
{
    static const uint32_t feeds[] = {8, 9, 15, 31, 32, 35, 40, 256, UINT32_MAX};

    for (size_t i = 0; i < sizeof feeds / sizeof feeds[0]; i++) {
        about("feed %lu", (unsigned long)feeds[i]);
        CHECK(offered(jazhuppe_offer(0, 7, feeds[i]), 18, 0, 7));
        CHECK(offered(jazhuppe_offer(0x08, 200, feeds[i]), 18, 0x08, 200));
        CHECK(offered(jazhuppe_offer(0xFFFFFF00, UINT32_MAX, feeds[i]), 18, 0xFFFFFF00, UINT32_MAX));
    }
}

static void test_last_above_7(void)
{
    static const uint32_t lasts[] = {8, 9, 14, 200, 256, UINT32_MAX};

    for (size_t i = 0; i < sizeof lasts / sizeof lasts[0]; i++) {
        about("last %lu", (unsigned long)lasts[i]);
        CHECK(served(jazhuppe_turn(0xFF, lasts[i]), 0, 0xFE, 0));
        CHECK(served(jazhuppe_turn(0x82, lasts[i]), 1, 0x80, 1));
        CHECK(served(jazhuppe_turn(0x80, lasts[i]), 7, 0x00, 7));
        CHECK(offered(jazhuppe_offer(0x80, lasts[i], 2), 0, 0x84, lasts[i]));
    }
}

static void test_bits_above_7(void)
{
    CHECK(offered(jazhuppe_offer(0xFFFFFF00, 7, 0), 0, 0xFFFFFF01, 7));
    CHECK(offered(jazhuppe_offer(0x80000100, 2, 7), 0, 0x80000180, 2));
    CHECK(offered(jazhuppe_offer(0x80000180, 2, 7), 18, 0x80000180, 2));
    CHECK(served(jazhuppe_turn(0x80000101, 7), 0, 0x80000100, 0));
    CHECK(served(jazhuppe_turn(0xFFFFFF88, 3), 7, 0xFFFFFF08, 7));
    CHECK(served(jazhuppe_turn(0xFFFFFF08, 3), 3, 0xFFFFFF00, 3));
    CHECK(nobody(jazhuppe_turn(0xFFFFFF00, 3), 0xFFFFFF00, 3));
}

/* ---- every state */

static bool turn_agrees(uint32_t waiting, uint32_t last)
{
    jazhuppe_served given = jazhuppe_turn(waiting, last), expected = second_turn(waiting, last);

    return memcmp(&given, &expected, sizeof given) == 0;
}

static bool offer_agrees(uint32_t waiting, uint32_t last, uint32_t feed)
{
    jazhuppe_offered given = jazhuppe_offer(waiting, last, feed), expected = second_offer(waiting, last, feed);

    return memcmp(&given, &expected, sizeof given) == 0;
}

static bool offers_agree(uint32_t waiting, uint32_t last)
{
    static const uint32_t feeds[] = {0,  1,  2,  3,  4,  5,  6,   7,   8,         9,
                                     15, 31, 32, 33, 40, 64, 255, 256, UINT32_MAX};

    for (size_t i = 0; i < sizeof feeds / sizeof feeds[0]; i++)
        if (!offer_agrees(waiting, last, feeds[i]))
            return false;
    return true;
}

/* Whoever waits, whoever was last served, and some bits above 7; up to the first state where something differs. */
static void hold_each_state(bool (*agrees)(uint32_t waiting, uint32_t last))
{
    static const uint32_t lasts[] = {0, 1, 2, 3, 4, 5, 6, 7, 8, 200, UINT32_MAX};
    static const uint32_t above[] = {0, 0x100, 0x80000000, 0xFFFFFF00};
    bool all = true;

    for (uint32_t mask = 0; mask < 256; mask++)
        for (size_t l = 0; l < sizeof lasts / sizeof lasts[0]; l++)
            for (size_t a = 0; a < sizeof above / sizeof above[0] && all; a++) {
                all = agrees(mask + above[a], lasts[l]);
                if (!all)
                    about("waiting %08lX, last %lu", (unsigned long)(mask + above[a]), (unsigned long)lasts[l]);
                CHECK(all);
            }
}

static void test_every_turn(void)
{
    hold_each_state(turn_agrees);
}

static void test_every_offer(void)
{
    hold_each_state(offers_agree);
}

/* ---- lists of events: the host */

enum { WORDS = JAZHUPPE_SCAN_WORDS, FEEDS = 8, TURNS_MOST = 8, EVENTS_MOST = 400, PLAIN_MOST = 400 };

/* A piece that was offered: where in the feed's plan, and how many turns had been taken by then. */
typedef struct {
    size_t at, length;
    unsigned turn;
} piece;

/* A call that was made on a scan, and what came of it; its ends stand in the feed's list, pair after pair. */
typedef struct {
    bool finish;
    size_t at, length, list;
    jazhuppe_answer answer;
    size_t ends_at;
} call;

typedef struct {
    uint8_t plan[PLAN_MOST];
    size_t plan_len, at; /* what is offered next begins there */
    lent room;
    uint64_t *scan; /* its scan among the others', in its room */
    uint64_t alone[WORDS];
    second_scan plain;
    piece pieces[EVENTS_MOST]; /* the accepted offers, in order; those from `taken` on wait */
    size_t accepted, taken;
    call calls[EVENTS_MOST + TURNS_MOST];
    size_t calls_count;
    uint32_t ends[JAZHUPPE_PAIR * PLAN_MOST];
    size_t ends_count;
} feed;

static unsigned long long seed = 1;
static unsigned lists = 2000, list_number, event;
static unsigned long accepted_seen, above_seen, twice_seen, served_seen, nobody_seen, empty_seen, refused_short_seen,
    refused_finished_seen, finished_seen, held_seen, ends_seen, plain_seen, left_seen, longest_seen;

static feed feeds[FEEDS];
static struct {
    uint32_t waiting, last, above; /* above: what the bits above 7 were at the beginning */
    unsigned turns;
} dispatcher;

static void hold(bool holds, const char *what)
{
    if (holds)
        return;
    printf("DIFFERENCE: %s: seed %llu, list %u, event %u; waiting %08lX, last %lu\n", what, seed, list_number, event,
           (unsigned long)dispatcher.waiting, (unsigned long)dispatcher.last);
    printf("turns: 0 ok, 1 failed\n");
    exit(EXIT_FAILURE);
}

static bool has_piece(const feed *f)
{
    return f->taken < f->accepted;
}

static bool somebody_waits(void)
{
    for (uint32_t i = 0; i < FEEDS; i++)
        if (has_piece(&feeds[i]))
            return true;
    return false;
}

/* Takes over what a call left, and holds it against the pieces that the host has: none lost, none waiting too long. */
static void hand_on(uint32_t waiting, uint32_t last)
{
    dispatcher.waiting = waiting;
    dispatcher.last = last;
    hold(waiting >> FEEDS == dispatcher.above, "the bits above 7");
    for (uint32_t i = 0; i < FEEDS; i++) {
        const feed *f = &feeds[i];

        hold((waiting >> i) % 2 == has_piece(f), "who waits");
        hold(!has_piece(f) || dispatcher.turns - f->pieces[f->taken].turn < TURNS_MOST, "a piece after its eighth turn");
    }
}

/* ---- calls on a scan */

/* The bytes of so many pairs. */
static size_t pair_bytes(size_t count)
{
    return count * JAZHUPPE_PAIR * sizeof(uint32_t);
}

/* The call's ends then stand at the beginning of the lent list. */
static jazhuppe_answer made(const call *c, const feed *f, uint64_t *scan)
{
    uint32_t *ends = lend(&list_room, c->list * sizeof *ends);
    const uint8_t *bytes = lend_bytes(&text_room, f->plan + c->at, c->length);
    jazhuppe_answer a = c->finish ? jazhuppe_finish(scan, WORDS, ends, c->list)
                                  : jazhuppe_feed(scan, WORDS, bytes, c->length, ends, c->list);

    hold(pair_bytes(a.count) <= c->list * sizeof *ends && untouched_past(&list_room, pair_bytes(a.count)),
         "what stands past the ends");
    hold(untouched(&text_room), "the piece");
    return a;
}

/* Only the feed's own scan has moved, and not where its call was refused. */
static void hold_scans(const feed *moved, bool refused)
{
    for (uint32_t i = 0; i < FEEDS; i++)
        if (&feeds[i] == moved && !refused)
            hold(untouched_past(&feeds[i].room, WORDS * sizeof(uint64_t)), "words around a scan value");
        else
            hold(untouched(&feeds[i].room), "a scan value that is not moved");
}

static void count_call(const feed *f, const call *c)
{
    empty_seen += !c->finish && c->length == 0 && c->answer.number == 0;
    refused_short_seen += c->answer.number == JAZHUPPE_TOO_SHORT;
    refused_finished_seen += c->answer.number == JAZHUPPE_FINISHED;
    finished_seen += c->finish && c->answer.number == 0;
    held_seen += c->answer.number == 0 && f->scan[HELD] > 0;
    ends_seen += c->answer.count;
}

/* Makes the call on the feed's scan, among the calls of the others, and keeps what comes of it. */
static void make_call(feed *f, bool finish, size_t at, size_t length)
{
    call c = {finish, at, length, list_length(finish ? JAZHUPPE_FINISH_LIST : JAZHUPPE_FEED_LIST(length)), {0, 0, 0, 0}, 0};

    c.answer = made(&c, f, f->scan);
    c.ends_at = f->ends_count;
    hold_scans(f, c.answer.number != 0);
    lent_anew(&f->room);
    hold(f->ends_count + c.answer.count <= PLAN_MOST, "how many ends there are");
    memcpy(f->ends + JAZHUPPE_PAIR * f->ends_count, list_room.slice, pair_bytes(c.answer.count));
    f->ends_count += c.answer.count;
    f->calls[f->calls_count++] = c;
    count_call(f, &c);
    /* What its list was too short for, the host leaves out, or offers again. */
    if (c.answer.number == JAZHUPPE_TOO_SHORT && !finish && one_in(2))
        f->at = at;
}

/* ---- events */

static void try_offer(uint32_t number)
{
    jazhuppe_offered o = jazhuppe_offer(dispatcher.waiting, dispatcher.last, number);
    bool above = number >= FEEDS, twice = !above && has_piece(&feeds[number]);

    hold(offer_agrees(dispatcher.waiting, dispatcher.last, number), "an offer");
    hold(o.number == (above || twice ? 18 : 0), "an offer's number");
    if (o.number == 0) {
        feed *f = &feeds[number];
        size_t left = f->plan_len - f->at, length = one_in(8) ? 0 : 1 + below(one_in(4) ? 100 : 12);
        piece p = {f->at, length < left ? length : left, dispatcher.turns};

        f->pieces[f->accepted++] = p;
        f->at += p.length;
    }
    accepted_seen += o.number == 0;
    above_seen += above;
    twice_seen += twice;
    hand_on(o.waiting, o.last);
}

/* The feed's first piece that waits goes to its scan; refused or not, it is served. */
static void serve(feed *f)
{
    const piece *p = &f->pieces[f->taken];

    hold(has_piece(f), "a turn of a feed that has no piece");
    f->taken++;
    longest_seen = dispatcher.turns - p->turn > longest_seen ? dispatcher.turns - p->turn : longest_seen;
    make_call(f, false, p->at, p->length);
}

/* Whether somebody was served. */
static bool try_turn(void)
{
    jazhuppe_served s = jazhuppe_turn(dispatcher.waiting, dispatcher.last);

    hold(turn_agrees(dispatcher.waiting, dispatcher.last), "a turn");
    hold((s.served == 1) == somebody_waits(), "whether somebody waits");
    dispatcher.turns++;
    if (s.served == 1)
        serve(&feeds[s.feed % FEEDS]);
    served_seen += s.served == 1;
    nobody_seen += s.served == 0;
    hand_on(s.waiting, s.last);
    return s.served == 1;
}

/* At the plan's end most often, whether a piece still waits or not. */
static void try_finish(feed *f)
{
    if (f->at == f->plan_len || one_in(8))
        make_call(f, true, 0, 0);
}

static uint64_t *open_scan(uint64_t *scan)
{
    hold(jazhuppe_open(lend_rule(), now.rule_len, now.fold, lend_codes(), now.codes_len, lend_sets(), now.sets_len, scan,
                       WORDS).number == 0,
         "an opening");
    return scan;
}

/* A rule that is accepted, with its plan, and two scans for it. */
static void draw_feed(feed *f)
{
    do {
        draw_rule_and_plan();
    } while (now.read.number != 0);
    memcpy(f->plan, now.plan, now.plan_len);
    f->plan_len = now.plan_len;
    f->at = f->accepted = f->taken = f->calls_count = f->ends_count = 0;
    f->scan = open_scan(lend(&f->room, WORDS * sizeof *f->scan));
    lent_anew(&f->room);
    open_scan(f->alone);
    second_open(now.rule, now.rule_len, now.fold, now.codes, now.codes_len, now.sets, now.sets_len, &f->plain);
}

/* At the opening most often; else after anyone, with anything above bit 7. */
static void open_dispatcher(void)
{
    bool opening = !one_in(4);

    dispatcher.above = opening ? 0 : (uint32_t)random_word(&source) >> FEEDS;
    dispatcher.waiting = dispatcher.above << FEEDS;
    dispatcher.last = opening ? JAZHUPPE_LAST_AT_OPENING : one_in(2) ? below(FEEDS) : (uint32_t)random_word(&source);
    dispatcher.turns = 0;
}

/* All feeds, or few of them; with more offers than turns, or fewer. */
static void try_events(void)
{
    static const uint32_t no_feeds[] = {8, 9, 15, 31, 32, 40, 256, UINT32_MAX};
    uint32_t offers = 1 + below(9), first = below(FEEDS), few = one_in(2) ? FEEDS : 1 + below(FEEDS);
    unsigned events = 20 + below(EVENTS_MOST - 20);

    for (event = 0; event < events; event++) {
        uint32_t f = (first + below(few)) % FEEDS;

        if (one_in(40))
            try_offer(no_feeds[below(sizeof no_feeds / sizeof no_feeds[0])]);
        else if (one_in(50))
            try_finish(&feeds[f]);
        else if (below(10) < offers)
            try_offer(f);
        else
            try_turn();
    }
}

/* ---- each feed alone */

static bool same_call(const feed *f, const call *c, jazhuppe_answer a, const void *ends)
{
    return memcmp(&a, &c->answer, sizeof a) == 0 &&
           memcmp(ends, f->ends + JAZHUPPE_PAIR * c->ends_at, pair_bytes(a.count)) == 0;
}

/* The pieces are those of the accepted offers, in their order, up to the one that waits. */
static void hold_order(const feed *f)
{
    size_t pieces = 0;

    for (size_t i = 0; i < f->calls_count; i++) {
        const call *c = &f->calls[i];

        if (c->finish)
            continue;
        hold(c->at == f->pieces[pieces].at && c->length == f->pieces[pieces].length, "the order of a feed's pieces");
        pieces++;
    }
    hold(pieces == f->taken && f->accepted - pieces <= 1, "how many pieces were served");
    left_seen += f->accepted - pieces;
}

/* The feed's calls, in order, on a scan of its own; and those of a small plan by the plain scan. */
static void hold_alone(feed *f)
{
    static uint32_t ends[JAZHUPPE_PAIR * SECOND_PLAN_MOST];

    for (size_t i = 0; i < f->calls_count; i++) {
        const call *c = &f->calls[i];
        jazhuppe_answer a = made(c, f, f->alone);

        hold(same_call(f, c, a, list_room.slice), "a call made alone");
        if (f->plan_len > PLAIN_MOST)
            continue;
        a = c->finish ? second_finish(&f->plain, ends, c->list)
                      : second_feed(&f->plain, f->plan + c->at, c->length, ends, c->list);
        hold(same_call(f, c, a, ends), "a call by the plain scan");
        plain_seen++;
    }
    hold(memcmp(f->scan, f->alone, sizeof f->alone) == 0, "the scan value of the feed alone");
}

static void try_list(void)
{
    lent_in_front = one_in(2);
    for (uint32_t i = 0; i < FEEDS; i++)
        draw_feed(&feeds[i]);
    open_dispatcher();
    try_events();
    /* Some lists go on until nobody waits. */
    if (one_in(2))
        while (try_turn())
            continue;
    for (uint32_t i = 0; i < FEEDS; i++) {
        hold_order(&feeds[i]);
        hold_alone(&feeds[i]);
    }
}

static void test_lists(void)
{
    source = random_from(seed);
    for (list_number = 0; list_number < lists; list_number++)
        try_list();
}

/* Whether something came up so often in a hundred lists. */
static void enough(const char *what, unsigned long count, unsigned long often)
{
    about("%s, %lu in %u lists", what, count, lists);
    CHECK(count * 100 >= often * lists);
}

/* So that the lists say something. */
static void test_enough(void)
{
    enough("offers accepted", accepted_seen, 1000);
    enough("offers refused, the number above 7", above_seen, 100);
    enough("offers refused, a piece waiting", twice_seen, 1000);
    enough("turns that served", served_seen, 1000);
    enough("turns with nobody waiting", nobody_seen, 100);
    enough("empty pieces", empty_seen, 100);
    enough("calls refused by 9", refused_short_seen, 100);
    enough("calls refused by 12", refused_finished_seen, 100);
    enough("finishes", finished_seen, 100);
    enough("calls that held bytes back", held_seen, 50);
    enough("ends", ends_seen, 1000);
    enough("calls held against the plain scan", plain_seen, 1000);
    enough("pieces left waiting", left_seen, 50);
    about("the longest wait, %lu turns", longest_seen);
    CHECK(longest_seen == TURNS_MOST);
}

static void print_counts(void)
{
    printf("turns: seed %llu, %u lists\n", seed, lists);
    printf("offers accepted %lu, refused %lu as above 7, %lu as a piece waits\n", accepted_seen, above_seen, twice_seen);
    printf("turns that served %lu, with nobody waiting %lu; longest wait %lu turns; pieces left waiting %lu\n", served_seen,
           nobody_seen, longest_seen, left_seen);
    printf("empty pieces %lu, finishes %lu, calls refused %lu by 9, %lu by 12, calls that held bytes back %lu, ends %lu\n",
           empty_seen, finished_seen, refused_short_seen, refused_finished_seen, held_seen, ends_seen);
}

int main(int argc, char **argv)
{
    if (argc > 1)
        seed = strtoull(argv[1], NULL, 10);
    if (argc > 2)
        lists = (unsigned)strtoul(argv[2], NULL, 10);
    rule_room = lent_room(RULE_ROOM);
    codes_room = lent_room(CODES_ROOM);
    sets_room = lent_room(SETS_ROOM);
    text_room = lent_room(PLAN_MOST);
    list_room = lent_room((JAZHUPPE_FEED_LIST(PLAN_MOST) + JAZHUPPE_FINISH_LIST) * sizeof(uint32_t));
    for (uint32_t i = 0; i < FEEDS; i++)
        feeds[i].room = lent_room(WORDS * sizeof(uint64_t));
    run("the opening", test_opening);
    run("nobody waiting changes nothing", test_nobody);
    run("the last served goes last", test_served_again);
    run("everyone waiting goes round", test_round);
    run("and round again", test_round_again);
    run("feed 0 offering again at once does not starve feed 1", test_not_starved);
    run("the seven others offering again: the eighth turn", test_eighth_turn);
    run("18: a feed that has a piece waiting", test_offer_twice);
    run("18: a feed number above 7", test_offer_above_7);
    run("a last served above 7 reads as 7, and stays", test_last_above_7);
    run("bits above 7 are ignored and kept", test_bits_above_7);
    run("every turn, as the second implementation has it", test_every_turn);
    run("every offer", test_every_offer);
    run("lists of offers, turns and finishes over eight scans", test_lists);
    if (lists >= 100)
        run("enough of each kind", test_enough);
    print_counts();
    return finished("turns");
}
