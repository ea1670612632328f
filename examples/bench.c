/*
 * A bench program: the tables of document 01 (and two of source 001), their fit and refinement, and one startup followed signal by signal through a
 * record that this program lends; then two tables with a mistyped cell, which the refusals name. It prints one line for each call;
 * examples/bench.out has what it must print.
 */
#include "moqresam.h"

#include <stdio.h>

#define MOST_STATES 8
#define MOST_STEPS 9
#define SET(signal) (UINT32_C(1) << (signal))

/* The signals of document 01's tables, and those of source 001; NULL where a signal has no name. */
enum { POWER, SETTLED, START, READ };
enum { MSG, OK, FAIL, SEND, ACK, NACK };

static const char *const bench_signals[MOQRESAM_SIGNALS] = {"power", "settled", "start", "read"};
static const char *const message_signals[MOQRESAM_SIGNALS] = {"msg", "ok", "fail", "send", "ack", "nack"};

/* A table as a person types it: the steps in place of the cells. */
struct description {
    const char *name;
    const char *const *signals;
    size_t states;
    uint32_t inputs;
    uint32_t outputs;
    size_t steps;
    struct {
        size_t from;
        size_t signal;
        size_t to;
    } step[MOST_STEPS];
};

static const struct description ref = {
    "ref", bench_signals, 3, SET(POWER), SET(SETTLED), 2, {{0, POWER, 1}, {1, SETTLED, 2}}};
static const struct description ref21 = {
    "ref21", bench_signals, 3, SET(POWER), SET(SETTLED), 3, {{0, POWER, 1}, {1, SETTLED, 2}, {2, POWER, 1}}};
static const struct description cal = {
    "cal", bench_signals, 4, SET(SETTLED), SET(POWER) | SET(READ), 3, {{0, POWER, 1}, {1, SETTLED, 2}, {2, READ, 3}}};
static const struct description hasty = {
    "hasty", bench_signals, 3, SET(SETTLED), SET(POWER) | SET(READ), 2, {{0, POWER, 1}, {1, READ, 2}}};
static const struct description plan = {
    "plan", bench_signals, 5, SET(START), SET(POWER) | SET(SETTLED) | SET(READ), 4,
    {{0, START, 1}, {1, POWER, 2}, {2, SETTLED, 3}, {3, READ, 4}}};

/* Source 001, Figure 1: Comp sends a message, and a second time if the first fails; User never expects that both do. */
static const struct description user = {
    "User", message_signals, 2, SET(OK) | SET(FAIL), SET(MSG), 2, {{0, MSG, 1}, {1, OK, 0}}};
static const struct description comp = {
    "Comp", message_signals, 7, SET(MSG) | SET(ACK) | SET(NACK), SET(OK) | SET(FAIL) | SET(SEND), 9,
    {{0, MSG, 1}, {1, SEND, 2}, {2, ACK, 5}, {2, NACK, 3}, {3, SEND, 4}, {4, ACK, 5}, {4, NACK, 6}, {5, OK, 0}, {6, FAIL, 0}}};

/* ref as one mistypes it: its last state as 3, though states count from 0; a step one column too far, under a signal that ref does not have. */
static const struct description ref_high = {
    "ref_high", bench_signals, 3, SET(POWER), SET(SETTLED), 2, {{0, POWER, 1}, {1, SETTLED, 3}}};
static const struct description ref_far = {
    "ref_far", bench_signals, 3, SET(POWER), SET(SETTLED), 2, {{0, POWER, 1}, {1, START, 2}}};

/* The cells of one table. */
typedef uint8_t cell_room[MOST_STATES * MOQRESAM_STATE_BYTES];

/* Makes the table that has the steps described, and no other, in the cells lent. */
static moqresam_table make(const struct description *d, uint8_t *cells)
{
    moqresam_table t = moqresam_blank_table(cells, d->states, d->inputs, d->outputs);
    size_t k;

    for (k = 0; k < d->steps; k++)
        moqresam_write_cell(cells, d->step[k].from, d->step[k].signal, d->step[k].to);
    return t;
}

/* Prints a signal by its name, or by its number where it has none. */
static void print_signal(const struct description *d, size_t signal)
{
    if (signal < MOQRESAM_SIGNALS && d->signals[signal] != NULL)
        printf("%s", d->signals[signal]);
    else
        printf("signal %zu", signal);
}

static void print_refusal(uint32_t number, uint32_t table)
{
    printf("refused %u, table %u (%s)", (unsigned)number, (unsigned)table, moqresam_refusal_text(number));
}

/* Prints the cell of the table at fault. Only 5 and 6 name one. */
static void print_cell(uint32_t number, const struct description *at_fault, size_t state, size_t signal)
{
    if (number == MOQRESAM_REFUSED_CELL || number == MOQRESAM_REFUSED_UNDECLARED) {
        printf(", state %zu, ", state);
        print_signal(at_fault, signal);
    }
}

/* Prints the pairs (p, q) whose byte is 1. */
static void print_pairs(const uint8_t *bytes, size_t pairs, size_t states_b)
{
    size_t k;

    for (k = 0; k < pairs; k++)
        if (bytes[k] == 1)
            printf(" (%zu,%zu)", k / states_b, k % states_b);
}

static void fit(const struct description *first, const struct description *second)
{
    cell_room a_cells, b_cells;
    moqresam_table a = make(first, a_cells), b = make(second, b_cells);
    uint8_t flags[MOST_STATES * MOST_STATES];
    size_t pairs = moqresam_pairs(&a, &b);
    moqresam_fit_reply r = moqresam_fit_tables(&a, &b, flags, pairs);

    printf("fit %s %s: ", first->name, second->name);
    if (r.number != MOQRESAM_ACCEPTED) {
        print_refusal(r.number, r.table);
        print_cell(r.number, r.table == 2 ? second : first, r.cell_state, r.cell_signal);
    } else {
        printf("%s, rounds %zu, kept %zu of %zu:", r.compatible ? "yes" : "no", r.rounds, moqresam_count_kept(flags, pairs), pairs);
        print_pairs(flags, pairs, b.states);
    }
    printf("\n");
}

static void refine(const struct description *first, const struct description *second)
{
    cell_room a_cells, b_cells;
    moqresam_table a = make(first, a_cells), b = make(second, b_cells);
    uint8_t marks[MOST_STATES * MOST_STATES];
    size_t pairs = moqresam_pairs(&a, &b);
    moqresam_refine_reply r = moqresam_refine_tables(&a, &b, marks, pairs);

    printf("refine %s %s: ", first->name, second->name);
    if (r.number != MOQRESAM_ACCEPTED) {
        print_refusal(r.number, r.table);
        print_cell(r.number, r.table == 2 ? second : first, r.cell_state, r.cell_signal);
    } else {
        printf("%s, marked:", r.refines ? "yes" : "no");
        print_pairs(marks, pairs, b.states);
    }
    printf("\n");
}

/* Follows signals as they come: at each, the record moves along the table or stays where it is. */
static void follow(const struct description *d, const size_t *signals, size_t count)
{
    cell_room cells;
    moqresam_table t = make(d, cells);
    moqresam_follower follower = {t.initial};
    size_t k;

    for (k = 0; k < count; k++) {
        size_t before = follower.state;
        moqresam_follow_reply r = moqresam_follow_table_record(&t, &follower, signals[k]);

        printf("%s at %zu, ", d->name, before);
        print_signal(d, signals[k]);
        printf(": ");
        if (r.number != MOQRESAM_ACCEPTED) {
            print_refusal(r.number, r.table);
            print_cell(r.number, d, r.cell_state, r.cell_signal);
        } else if (r.moved) {
            printf("moved to %zu", r.state);
        } else {
            printf("not now");
        }
        printf(", at %zu\n", follower.state);
    }
}

int main(void)
{
    static const size_t startup[] = {POWER, START, READ, START, POWER, SETTLED, SETTLED, 9, READ, START, 32};
    static const size_t power_up[] = {POWER, SETTLED};

    fit(&ref, &cal);
    fit(&ref, &hasty);
    fit(&ref, &ref);
    fit(&user, &comp);
    refine(&ref, &ref);
    refine(&ref21, &ref);
    refine(&ref, &ref21);
    follow(&plan, startup, sizeof startup / sizeof startup[0]);

    fit(&cal, &ref_high);
    fit(&ref_far, &cal);
    refine(&ref_high, &ref);
    follow(&ref_high, power_up, sizeof power_up / sizeof power_up[0]);
    return 0;
}
