/*
 * Tests of every exported function and of every function of include/moqresam.h: replies field by field, lent buffers and the lent record, accepted
 * and refused. Every call is made in both forms, on the parts of a table and on moqresam_table, which have to answer alike. The expected flags and
 * marks were worked out by hand from document 01's rules. The last line is 'N passed, M failed'.
 */
#include "moqresam.h"

#include <stdio.h>
#include <stdlib.h>
#include <string.h>

#define SET(signal) (UINT32_C(1) << (signal))
#define GUARD 8
#define ROOM 8192

enum { POWER, SETTLED, START, READ };

/* What the replies of all calls say alike: why a call is refused, which table is at fault, and where. */
struct refusal {
    uint32_t number;
    uint32_t table;
    bool placed;
    size_t state;
    size_t signal;
};

/* Accepted calls and "not now". */
static const struct refusal accepted = {MOQRESAM_ACCEPTED, 0, false, 0, 0};

static struct refusal refusal(uint32_t number, uint32_t table, bool placed, size_t state, size_t signal)
{
    struct refusal r = {number, table, placed, state, signal};

    return r;
}

/* A refusal with a place: 1 to 6. */
static struct refusal at(uint32_t number, uint32_t table, size_t state, size_t signal)
{
    return refusal(number, table, true, state, signal);
}

/* A refusal without a place: 7 and up. */
static struct refusal nowhere(uint32_t number, uint32_t table)
{
    return refusal(number, table, false, 0, 0);
}

/* What a reply, of whichever call, says of it. */
#define REFUSAL(reply) refusal((reply).number, (reply).table, (reply).placed, (reply).cell_state, (reply).cell_signal)

static bool same(struct refusal r, struct refusal s)
{
    return r.number == s.number && r.table == s.table && r.placed == s.placed && r.state == s.state && r.signal == s.signal;
}

static int passed;
static int failed;

static void check(const char *what, bool good)
{
    if (good) {
        passed++;
    } else {
        failed++;
        printf("failed: %s\n", what);
    }
}

/* Every table's cells, to be freed at the end. */
static uint8_t *made[1024];
static size_t made_count;

/* A table without steps; two bytes more than it needs, for lengths that are off. */
static moqresam_table blank(size_t states, uint32_t inputs, uint32_t outputs)
{
    size_t length = states * MOQRESAM_STATE_BYTES + 2;
    uint8_t *cells = malloc(length);

    if (cells == NULL || made_count == sizeof made / sizeof made[0])
        abort();
    made[made_count++] = cells;
    memset(cells, 0xff, length);
    return moqresam_blank_table(cells, states, inputs, outputs);
}

/* Writes a step into the cells, which all copies of a table share, and which blank() made. */
static moqresam_table step(moqresam_table t, size_t from, size_t signal, size_t to)
{
    moqresam_write_cell((uint8_t *)t.cells, from, signal, to);
    return t;
}

static moqresam_table ref(void)
{
    return step(step(blank(3, SET(POWER), SET(SETTLED)), 0, POWER, 1), 1, SETTLED, 2);
}

static moqresam_table cal(void)
{
    moqresam_table t = blank(4, SET(SETTLED), SET(POWER) | SET(READ));

    return step(step(step(t, 0, POWER, 1), 1, SETTLED, 2), 2, READ, 3);
}

static moqresam_table hasty(void)
{
    return step(step(blank(3, SET(SETTLED), SET(POWER) | SET(READ)), 0, POWER, 1), 1, READ, 2);
}

/* ---- a lent buffer between guards */

static uint8_t room[GUARD + ROOM + GUARD];

static uint8_t *lend(void)
{
    memset(room, 0xa5, sizeof room);
    return room + GUARD;
}

/* Whether the buffer holds the digits of `text` and nothing beside it was written. */
static bool holds(const char *text)
{
    size_t n = strlen(text);
    size_t k;

    for (k = 0; k < sizeof room; k++) {
        uint8_t wanted = k < GUARD || k >= GUARD + n ? 0xa5 : (uint8_t)(text[k - GUARD] - '0');

        if (room[k] != wanted)
            return false;
    }
    return true;
}

/* What the first of two calls left in the room. */
static uint8_t first_room[sizeof room];

/* Lends the room anew for the second of two calls. */
static uint8_t *lend_again(void)
{
    memcpy(first_room, room, sizeof room);
    return lend();
}

/* Whether the second call left the same as the first. */
static bool same_room(void)
{
    return memcmp(first_room, room, sizeof room) == 0;
}

/* ---- fit */

static moqresam_fit_reply fit(moqresam_table a, moqresam_table b, size_t length)
{
    moqresam_fit_reply by_parts = moqresam_fit(a.states, a.initial, a.inputs, a.outputs, a.cells, a.cells_length,
        b.states, b.initial, b.inputs, b.outputs, b.cells, b.cells_length, lend(), length);
    moqresam_fit_reply r = moqresam_fit_tables(&a, &b, lend_again(), length);

    check("fit of tables", same(REFUSAL(r), REFUSAL(by_parts)) && r.compatible == by_parts.compatible && r.rounds == by_parts.rounds);
    check("fit of tables, the flags", same_room());
    return r;
}

static void fits(const char *what, moqresam_table a, moqresam_table b, bool compatible, size_t rounds, const char *flags)
{
    moqresam_fit_reply r = fit(a, b, strlen(flags));

    check(what, same(REFUSAL(r), accepted) && r.compatible == compatible && r.rounds == rounds && holds(flags));
}

static void fit_refused(const char *what, moqresam_table a, moqresam_table b, size_t length, struct refusal wanted)
{
    moqresam_fit_reply r = fit(a, b, length);

    check(what, same(REFUSAL(r), wanted) && !r.compatible && r.rounds == 0 && holds(""));
}

/* ---- the count */

/* Whether the count of `length` bytes from `start` is `wanted`. */
static bool counts(size_t start, size_t length, size_t wanted)
{
    return moqresam_count_kept(room + start, length) == wanted;
}

/*
 * Every byte at every place; the others are all 1, or none is. Words are taken four at a time, then one by one, so few flags would not reach all of the
 * code.
 */
static bool counts_every_byte(size_t length, uint8_t others)
{
    size_t place, same = others == 1 ? length - 1 : 0;
    unsigned byte;

    memset(room, others, length);
    for (place = 0; place < length; place++) {
        for (byte = 0; byte < 256; byte++) {
            room[place] = (uint8_t)byte;
            if (!counts(0, length, same + (byte == 1)))
                return false;
        }
        room[place] = others;
    }
    return true;
}

/* Every length that the flags of a fit can have, and some more, from every start: all around are bytes of 1, and none of them is counted. */
static bool counts_every_length(void)
{
    size_t start, length;

    memset(room, 1, sizeof room);
    for (start = 0; start < 8; start++)
        for (length = 0; length <= MOQRESAM_MAX_PAIRS + 8; length++)
            if (!counts(start, length, length))
                return false;
    return true;
}

/* ---- refinement */

static moqresam_refine_reply refine(moqresam_table a, moqresam_table b, size_t length)
{
    moqresam_refine_reply by_parts = moqresam_refine(a.states, a.initial, a.inputs, a.outputs, a.cells, a.cells_length,
        b.states, b.initial, b.inputs, b.outputs, b.cells, b.cells_length, lend(), length);
    moqresam_refine_reply r = moqresam_refine_tables(&a, &b, lend_again(), length);

    check("refinement of tables", same(REFUSAL(r), REFUSAL(by_parts)) && r.refines == by_parts.refines);
    check("refinement of tables, the marks", same_room());
    return r;
}

static void refines(const char *what, moqresam_table a, moqresam_table b, bool verdict, const char *marks)
{
    moqresam_refine_reply r = refine(a, b, strlen(marks));

    check(what, same(REFUSAL(r), accepted) && r.refines == verdict && holds(marks));
}

static void refine_refused(const char *what, moqresam_table a, moqresam_table b, size_t length, struct refusal wanted)
{
    moqresam_refine_reply r = refine(a, b, length);

    check(what, same(REFUSAL(r), wanted) && !r.refines && holds(""));
}

/* ---- the follower: by value and by record, of parts and of tables, which must say the same */

/* What a call of the follower must give. */
struct followed {
    struct refusal refusal;
    bool moved;
    size_t state;
};

static bool replies(moqresam_follow_reply r, struct followed wanted)
{
    return same(REFUSAL(r), wanted.refusal) && r.moved == wanted.moved && r.state == wanted.state;
}

static void follows(const char *what, moqresam_table t, size_t state, size_t signal, struct followed wanted)
{
    moqresam_follower record[] = {{17}, {state}, {18}, {state}, {19}};

    check(what, replies(moqresam_follow(t.states, t.initial, t.inputs, t.outputs, t.cells, t.cells_length, state, signal), wanted));
    check(what, replies(moqresam_follow_table(&t, state, signal), wanted));
    check(what,
        replies(moqresam_follow_record(t.states, t.initial, t.inputs, t.outputs, t.cells, t.cells_length, &record[1], signal), wanted));
    check(what, replies(moqresam_follow_table_record(&t, &record[3], signal), wanted));
    check(what, record[1].state == wanted.state && record[3].state == wanted.state);
    check(what, record[0].state == 17 && record[2].state == 18 && record[4].state == 19);
}

static void moves(const char *what, moqresam_table t, size_t state, size_t signal, size_t next)
{
    struct followed wanted = {accepted, true, next};

    follows(what, t, state, signal, wanted);
}

static void not_now(const char *what, moqresam_table t, size_t state, size_t signal)
{
    struct followed wanted = {accepted, false, state};

    follows(what, t, state, signal, wanted);
}

static void follow_refused(const char *what, moqresam_table t, size_t state, size_t signal, struct refusal why)
{
    struct followed wanted = {why, false, state};

    follows(what, t, state, signal, wanted);
}

/* ---- tables with something wrong */

static moqresam_table initial_at(moqresam_table t, size_t initial)
{
    t.initial = initial;
    return t;
}

static moqresam_table lists(moqresam_table t, uint32_t inputs, uint32_t outputs)
{
    t.inputs = inputs;
    t.outputs = outputs;
    return t;
}

static moqresam_table bytes(moqresam_table t, size_t length)
{
    t.cells_length = length;
    return t;
}

static moqresam_table states(moqresam_table t, size_t count)
{
    t.states = count;
    return t;
}

static moqresam_table nothing(moqresam_table t)
{
    t.cells = NULL;
    t.cells_length = 0;
    return t;
}

/* ---- */

/* What the calls on two tables refuse alike: checks 1 to 6 of the table at fault, in their order, each with its place. */
typedef void refused_call(const char *what, moqresam_table a, moqresam_table b, size_t length, struct refusal wanted);

/* The k-th fault of a list, in the first table, where it comes before any of the second, and in the second. */
static void fault(const char *call, refused_call *refused, size_t k, moqresam_table bad, struct refusal wanted)
{
    char what[80];

    sprintf(what, "%s, fault %d of the first table, %d", call, (int)k, (int)wanted.number);
    refused(what, bad, cal(), 12, wanted);
    refused(what, bad, states(cal(), 0), 12, wanted);
    wanted.table = 2;
    sprintf(what, "%s, fault %d of the second table, %d", call, (int)k, (int)wanted.number);
    refused(what, cal(), bad, 12, wanted);
}

/* Checks 1 to 4 name state 0, signal 0. */
static void shape_faults(const char *call, refused_call *refused)
{
    moqresam_table both = lists(ref(), 3, 3);
    struct {
        moqresam_table t;
        uint32_t number;
    } bad[] = {
        {states(ref(), 0), 1},
        {nothing(states(ref(), 0)), 1},
        {blank(4097, SET(POWER), SET(SETTLED)), 1},
        {bytes(states(ref(), SIZE_MAX), 192), 1},
        {states(ref(), SIZE_MAX / 64 + 2), 1},
        {initial_at(states(ref(), 4097), 5000), 1},
        {initial_at(ref(), 3), 2},
        {initial_at(ref(), SIZE_MAX), 2},
        {bytes(initial_at(both, 3), 191), 2},
        {both, 3},
        {bytes(both, 191), 3},
        {bytes(ref(), 191), 4},
        {bytes(ref(), 193), 4},
        {bytes(ref(), 0), 4},
        {nothing(ref()), 4},
        {bytes(ref(), 96), 4},
        {bytes(ref(), 190), 4},
        {bytes(ref(), 194), 4},
        {bytes(step(ref(), 2, 31, 3), 191), 4},
        {bytes(blank(4096, 1, 2), 262143), 4},
        {bytes(blank(4096, 1, 2), 262145), 4},
    };
    size_t k;

    for (k = 0; k < sizeof bad / sizeof bad[0]; k++)
        fault(call, refused, k, bad[k].t, at(bad[k].number, 1, 0, 0));
}

/* Checks 5 and 6 name the cell. */
static void cell_faults(const char *call, refused_call *refused)
{
    struct {
        moqresam_table t;
        struct refusal wanted;
    } bad[] = {
        {step(ref(), 2, 31, 3), at(5, 1, 2, 31)},
        {step(ref(), 0, 0, 256), at(5, 1, 0, 0)},
        {step(ref(), 0, 0, 65534), at(5, 1, 0, 0)},
        {step(ref(), 1, POWER, 3), at(5, 1, 1, POWER)},
        {step(ref(), 2, 31, 0), at(6, 1, 2, 31)},
        {step(ref(), 0, READ, 0), at(6, 1, 0, READ)},
        /* The first in state order, then signal order. */
        {step(step(ref(), 1, READ, 3), 2, POWER, 3), at(5, 1, 1, READ)},
        {step(step(ref(), 1, READ, 3), 1, START, 65534), at(5, 1, 1, START)},
        {step(step(ref(), 1, READ, 1), 2, START, 1), at(6, 1, 1, READ)},
        {step(step(ref(), 1, READ, 1), 1, START, 1), at(6, 1, 1, START)},
        /* Any 5 before any 6. */
        {step(step(ref(), 0, READ, 0), 2, SETTLED, 3), at(5, 1, 2, SETTLED)},
        {step(step(ref(), 0, SETTLED, 3), 2, READ, 0), at(5, 1, 0, SETTLED)},
        {step(step(ref(), 1, START, 0), 1, READ, 3), at(5, 1, 1, READ)},
        /* The last cell of the largest table. */
        {step(blank(4096, SET(POWER), SET(SETTLED)), 4095, 31, 4096), at(5, 1, 4095, 31)},
        {step(blank(4096, SET(POWER), SET(SETTLED)), 4095, 31, 4095), at(6, 1, 4095, 31)},
    };
    size_t k;

    for (k = 0; k < sizeof bad / sizeof bad[0]; k++)
        fault(call, refused, k, bad[k].t, bad[k].wanted);
    refused("6 of the first table before 5 of the second", step(ref(), 2, READ, 0), step(cal(), 0, POWER, 4), 12, at(6, 1, 2, READ));
}

/* Whether the first bytes of the lent room hold a value. */
static bool all_are(size_t count, uint8_t value)
{
    size_t k;

    for (k = 0; k < count; k++)
        if (room[GUARD + k] != value)
            return false;
    return true;
}

static void test_fit(void)
{
    moqresam_table one = blank(1, 0, 0), none = nothing(states(one, 0));
    moqresam_table sender = step(blank(300, 0, SET(5)), 0, 5, 258);
    moqresam_table taker = step(blank(1, SET(5), 0), 0, 5, 0);

    fits("ref fits cal", ref(), cal(), true, 1, "111101000111");
    fits("cal fits ref", cal(), ref(), true, 1, "100111101101");
    fits("ref and hasty do not fit", ref(), hasty(), false, 2, "011000011");
    fits("a table without signals fits itself", one, one, true, 0, "1");
    fits("from the last states", initial_at(ref(), 2), initial_at(cal(), 0), false, 1, "111101000111");
    fit_refused("ref with itself", ref(), ref(), 9, nowhere(7, 0));
    fit_refused("7 before 9", blank(65, 0, 1), blank(64, 0, 1), 4160, nowhere(7, 0));
    fit_refused("9 before 10", blank(65, 1, 0), blank(64, 0, 1), 4159, nowhere(9, 0));
    fit_refused("64 by 65", blank(64, 1, 0), blank(65, 0, 1), 4160, nowhere(9, 0));
    fit_refused("4096 by 2", blank(4096, 1, 0), blank(2, 0, 1), ROOM, nowhere(9, 0));
    fit_refused("4096 by 4096", blank(4096, 1, 0), blank(4096, 0, 1), 0, nowhere(9, 0));
    fit_refused("a flag short", ref(), cal(), 11, nowhere(10, 0));
    fit_refused("a flag over", ref(), cal(), 13, nowhere(10, 0));
    fit_refused("no flag", ref(), cal(), 0, nowhere(10, 0));
    check("64 by 64", fit(blank(64, 1, 0), blank(64, 0, 1), 4096).compatible && all_are(4096, 1));
    check("4096 by 1", fit(blank(4096, 1, 0), blank(1, 0, 1), 4096).compatible && all_are(4096, 1));
    check("1 by 4096", fit(blank(1, 1, 0), blank(4096, 0, 1), 4096).number == 0);
    check("64 by 1, the smaller room", fit(blank(64, 1, 0), blank(1, 0, 1), 64).number == 0);
    check("65 by 1, the larger room", fit(blank(65, 1, 0), blank(1, 0, 1), 65).number == 0);
    /* A step to 258 = 2 + 256: were the bytes exchanged, to 513, which is no state. */
    check("low byte first", fit(sender, taker, 300).number == 0);
    taker = step(blank(2, SET(5), SET(6)), 0, 5, 1);
    sender = step(step(blank(300, SET(6), SET(5)), 0, 5, 258), 258, 6, 0);
    taker = step(taker, 1, 6, 0);
    check("a cycle over state 258", fit(sender, taker, 600).number == 0 && room[GUARD] == 1);
    check("and no other", room[GUARD + 258 * 2 + 1] == 1 && room[GUARD + 3 * 2 + 1] == 0);
    check("no flags lent, no pair", moqresam_fit(0, 0, 0, 0, NULL, 0, 0, 0, 0, 0, NULL, 0, NULL, 0).number == 1);
    check("no flags lent, no pair, by tables", moqresam_fit_tables(&none, &none, NULL, 0).number == 1);
    check("no flags lent", moqresam_fit_tables(&one, &one, NULL, 0).number == 10);
}

static void test_count(void)
{
    static const uint8_t flags[] = {1, 0, 1, 255, 2, 3, 129, 1, 1};
    static uint8_t many[1048583];

    check("no flags, NULL", moqresam_count_kept(NULL, 0) == 0);
    check("ones alone", moqresam_count_kept(flags, sizeof flags) == 4);
    check("ones alone, of seven", moqresam_count_kept(flags, 7) == 2);
    check("every byte, others 0", counts_every_byte(77, 0));
    check("every byte, others 1", counts_every_byte(77, 1));
    check("every byte, others 255", counts_every_byte(77, 255));
    check("every length", counts_every_length());
    memset(many, 1, sizeof many);
    check("many flags", moqresam_count_kept(many, sizeof many) == sizeof many);
    check("flags of a fit", fit(ref(), hasty(), 9).number == 0 && counts(GUARD, 9, 4));
}

static void test_refine(void)
{
    moqresam_table ref21 = step(ref(), 2, POWER, 1);
    moqresam_table one = blank(1, 0, 0), none = nothing(states(one, 0));

    refines("ref refines ref", ref(), ref(), true, "111010011");
    refines("ref with a further step refines ref", ref21, ref(), true, "111010111");
    refines("ref does not refine it", ref(), ref21, false, "010000010");
    refines("a table without signals refines itself", one, one, true, "1");
    refines("the lists forbid it", ref(), cal(), false, "000000000000");
    refines("an input less", lists(blank(1, 0, 0), 0, SET(SETTLED)), blank(1, SET(POWER), SET(SETTLED)), false, "0");
    refines("an input more", blank(1, SET(POWER), 0), blank(1, 0, 0), true, "1");
    refine_refused("9 before 10", blank(65, 1, 0), blank(64, 1, 0), 4159, nowhere(9, 0));
    refine_refused("64 by 65", blank(64, 1, 0), blank(65, 1, 0), 4160, nowhere(9, 0));
    refine_refused("a mark short", ref(), ref(), 8, nowhere(10, 0));
    refine_refused("a mark over", ref(), ref(), 10, nowhere(10, 0));
    check("64 by 64", refine(blank(64, 1, 0), blank(64, 1, 0), 4096).refines && all_are(4096, 1));
    check("4096 by 1", refine(blank(4096, 1, 0), blank(1, 1, 0), 4096).refines && all_are(4096, 1));
    check("1 by 65, the larger room", refine(blank(1, 1, 0), blank(65, 1, 0), 65).refines);
    check("no marks lent, no pair", moqresam_refine(0, 0, 0, 0, NULL, 0, 0, 0, 0, 0, NULL, 0, NULL, 0).number == 1);
    check("no marks lent, no pair, by tables", moqresam_refine_tables(&none, &none, NULL, 0).number == 1);
    check("no marks lent", moqresam_refine_tables(&one, &one, NULL, 0).number == 10);
}

static void test_follow(void)
{
    moqresam_table t = step(ref(), 2, 31, 2);
    moqresam_table large = step(step(blank(4096, SET(7), 0), 4095, 7, 258), 258, 7, 4095);
    moqresam_table two = step(ref(), 0, SETTLED, 3);

    moves("a step by an input", ref(), 0, POWER, 1);
    moves("a step by an output", ref(), 1, SETTLED, 2);
    not_now("not now", ref(), 1, POWER);
    not_now("not now at the end", ref(), 2, SETTLED);
    moves("a step to the same state", step(ref(), 2, POWER, 2), 2, POWER, 2);
    moves("low byte first", large, 4095, 7, 258);
    moves("high byte second", large, 258, 7, 4095);
    follow_refused("1", states(ref(), 0), 0, POWER, at(1, 1, 0, 0));
    follow_refused("1, more than 4,096", states(ref(), 4097), 0, POWER, at(1, 1, 0, 0));
    follow_refused("1, as many as there are numbers", states(ref(), SIZE_MAX), 0, POWER, at(1, 1, 0, 0));
    follow_refused("2", initial_at(ref(), 3), 0, POWER, at(2, 1, 0, 0));
    follow_refused("2 before 4", bytes(initial_at(ref(), 3), 191), 0, POWER, at(2, 1, 0, 0));
    follow_refused("3", lists(ref(), 1, 1), 0, POWER, at(3, 1, 0, 0));
    follow_refused("3 before 4", bytes(lists(ref(), 1, 1), 191), 0, POWER, at(3, 1, 0, 0));
    follow_refused("4, a byte short", bytes(ref(), 191), 0, POWER, at(4, 1, 0, 0));
    follow_refused("4, a byte over", bytes(ref(), 193), 0, POWER, at(4, 1, 0, 0));
    follow_refused("4, no bytes", nothing(ref()), 0, POWER, at(4, 1, 0, 0));
    follow_refused("4, states by 32", bytes(ref(), 96), 0, POWER, at(4, 1, 0, 0));
    follow_refused("4 before 11", bytes(ref(), 191), 3, POWER, at(4, 1, 0, 0));
    follow_refused("11", ref(), 3, POWER, nowhere(11, 1));
    follow_refused("11, the largest number", ref(), SIZE_MAX, POWER, nowhere(11, 1));
    follow_refused("11 before 12", ref(), 3, 32, nowhere(11, 1));
    follow_refused("12, not declared", ref(), 0, READ, nowhere(12, 1));
    follow_refused("12, a step there", t, 2, 31, nowhere(12, 1));
    follow_refused("12, signal 32", ref(), 0, 32, nowhere(12, 1));
    follow_refused("12, the largest number", ref(), 0, SIZE_MAX, nowhere(12, 1));
    moves("signal 31, declared", lists(t, SET(31), 0), 2, 31, 2);
    follow_refused("5 of its own cell", step(ref(), 0, POWER, 3), 0, POWER, at(5, 1, 0, POWER));
    follow_refused("5, 65,534", step(ref(), 0, POWER, 65534), 0, POWER, at(5, 1, 0, POWER));
    follow_refused("5 of its own cell, not the first bad one", step(two, 2, SETTLED, 3), 2, SETTLED, at(5, 1, 2, SETTLED));
    follow_refused("5 of the last cell", step(blank(4096, SET(31), 0), 4095, 31, 4096), 4095, 31, at(5, 1, 4095, 31));
    moves("5 of another cell does not matter", step(ref(), 0, SETTLED, 3), 0, POWER, 1);
    moves("6 does not matter", t, 0, POWER, 1);
}

/* A startup from the first signal to the last in one record: it moves at every signal that is due, not at the first alone. */
static void test_startup(void)
{
    static const size_t signals[] = {READ, START, START, POWER, SETTLED, 40, READ, READ};
    static const size_t after[] = {0, 1, 1, 2, 3, 3, 4, 4};
    static const uint32_t number[] = {0, 0, 0, 0, 0, 12, 0, 0};
    static const bool moved[] = {false, true, false, true, true, false, true, false};
    moqresam_table plan = blank(5, SET(START), SET(POWER) | SET(SETTLED) | SET(READ));
    moqresam_follower record = {0};
    size_t k;

    plan = step(step(step(step(plan, 0, START, 1), 1, POWER, 2), 2, SETTLED, 3), 3, READ, 4);
    for (k = 0; k < sizeof signals / sizeof signals[0]; k++) {
        moqresam_follow_reply r = moqresam_follow_table_record(&plan, &record, signals[k]);
        struct followed wanted = {number[k] == 0 ? accepted : nowhere(number[k], 1), moved[k], after[k]};

        check("a startup", record.state == after[k]);
        check("a startup's replies", replies(r, wanted));
    }
}

/* ---- what the header brings beside the calls */

/* Whether each byte is 255. */
static bool is_blank(const uint8_t *bytes, size_t length)
{
    size_t k;

    for (k = 0; k < length; k++)
        if (bytes[k] != 255)
            return false;
    return true;
}

static void test_tables(void)
{
    uint8_t *cells = lend();
    moqresam_table t = moqresam_blank_table(cells, 3, 5, 10), large = blank(4096, 1, 0);

    check("a blank table", t.states == 3 && t.initial == 0 && t.inputs == 5 && t.outputs == 10 && t.cells == cells && t.cells_length == 192);
    check("a blank table's cells", is_blank(cells, 192));
    check("nothing beside a blank table", cells[-1] == 0xa5 && cells[192] == 0xa5);
    check("no step", moqresam_read_cell(t.cells, 2, 31) == MOQRESAM_NO_STEP);
    check("a blank table without states", moqresam_blank_table(lend(), 0, 0, 0).cells_length == 0 && holds(""));
    moqresam_write_cell(cells, 1, 2, 0x0102);
    check("a cell's two bytes, low byte first", cells[68] == 2 && cells[69] == 1);
    check("nothing beside a cell", cells[67] == 0xa5 && cells[70] == 0xa5);
    check("a cell read", moqresam_read_cell(cells, 1, 2) == 0x0102);
    moqresam_write_cell(cells, 1, 2, MOQRESAM_NO_STEP);
    check("a step taken away", moqresam_read_cell(cells, 1, 2) == MOQRESAM_NO_STEP);
    check("the last cell", moqresam_read_cell(step(large, 4095, 31, 4095).cells, 4095, 31) == 4095);
    check("the last cell's bytes", large.cells[large.cells_length - 2] == 0xff && large.cells[large.cells_length - 1] == 0x0f);
    check("pairs", moqresam_pairs(&t, &large) == 12288 && moqresam_pairs(&large, &t) == 12288);
}

/* Whether a call or a program gives the number: 25 to 27 are document 02's, for a request that has not landed. */
static bool is_given(uint32_t number)
{
    return number <= 24 || number == 28;
}

/* Whether no smaller number has the same words. */
static bool has_own_words(uint32_t number)
{
    uint32_t other;

    for (other = 0; other < number; other++)
        if (strcmp(moqresam_refusal_text(number), moqresam_refusal_text(other)) == 0)
            return false;
    return strlen(moqresam_refusal_text(number)) > 0;
}

static bool is_unknown(uint32_t number)
{
    return strcmp(moqresam_refusal_text(number), "unknown refusal number") == 0;
}

static void test_refusal_texts(void)
{
    uint32_t number;

    for (number = 0; number < 100; number++)
        check("a refusal's words", is_given(number) ? has_own_words(number) && !is_unknown(number) : is_unknown(number));
    check("no refusal", strcmp(moqresam_refusal_text(MOQRESAM_ACCEPTED), "accepted") == 0);
    check("the largest number", is_unknown(UINT32_MAX));
}

static void test_version(void)
{
    check("the version", MOQRESAM_VERSION == 4);
}

int main(void)
{
    shape_faults("fit", fit_refused);
    cell_faults("fit", fit_refused);
    shape_faults("refine", refine_refused);
    cell_faults("refine", refine_refused);
    test_fit();
    test_count();
    test_refine();
    test_follow();
    test_startup();
    test_tables();
    test_refusal_texts();
    test_version();
    while (made_count > 0)
        free(made[--made_count]);
    printf("%d passed, %d failed\n", passed, failed);
    return failed == 0 ? 0 : 1;
}
