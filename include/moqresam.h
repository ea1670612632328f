/*
 * Moqresam from C: whether two tables fit and how many pairs of states are kept, whether one table refines another, and where a signal leads from
 * a state. Two tables, of which the first sends signal 7 and the second takes it:
 *
 *     uint8_t a_cells[2 * MOQRESAM_STATE_BYTES], b_cells[2 * MOQRESAM_STATE_BYTES], flags[2 * 2];
 *     moqresam_table a = moqresam_blank_table(a_cells, 2, 0, 1u << 7), b = moqresam_blank_table(b_cells, 2, 1u << 7, 0);
 *     moqresam_write_cell(a_cells, 0, 7, 1);
 *     moqresam_write_cell(b_cells, 0, 7, 1);
 *     moqresam_fit_reply r = moqresam_fit_tables(&a, &b, flags, sizeof flags);
 *     puts(r.number != MOQRESAM_ACCEPTED ? moqresam_refusal_text(r.number) : r.compatible ? "they fit" : "they do not fit");
 *
 * examples/bench.c is a whole program. `make archives` builds the archive; compile with -Iinclude, as C99 or C++11 or later (the header has inline
 * functions), and link with -Ltarget/staticlib -lmoqresam. The words are document 01's; in brackets stands what the literature says.
 *
 * A call may be given any numbers and bytes: it ends with an answer or with a refusal. If several refusals apply, the first in the order of the
 * call's checks is given; for two tables, checks 1 to 6 of the first table come before those of the second. A refused call leaves the flags, the
 * marks and the follower as they were.
 *
 * No call can check its pointers, so a caller has to see to them: a pointer is to as many bytes as the length beside it says, or NULL with length 0;
 * a buffer that a call writes to does not overlap one that it reads; a pointer to a table or to a follower is never NULL.
 *
 * Calls allocate nothing and keep no state, so they may run at the same time on different buffers. The archive is for x86-64, and of the C library it
 * needs memset alone.
 */
#ifndef MOQRESAM_H
#define MOQRESAM_H

#include <stdbool.h>
#include <stddef.h>
#include <stdint.h>

#ifdef __cplusplus
extern "C" {
#endif

/*
 * The version of the calls. A new call, and any change of a reply or an argument, raises it by one.
 *
 *   1  fit, refine, follow
 *   2  every reply ends with the place of the fault
 *   3  moqresam_count_kept
 *   4  moqresam_table, the calls that take it, and the words of the refusals: all in this header; the archive has the calls of 3
 */
#define MOQRESAM_VERSION 4

/* The cell without a step; the signals, and so the cells, of a state; the bytes of a cell, and of the cells of a state. */
#define MOQRESAM_NO_STEP 65535u
#define MOQRESAM_SIGNALS 32u
#define MOQRESAM_CELL_BYTES 2u
#define MOQRESAM_STATE_BYTES 64u

/* The most states that a table may have, and the most pairs of states that fit and refine take. */
#define MOQRESAM_MAX_STATES 4096u
#define MOQRESAM_MAX_PAIRS 4096u

/*
 * The bytes of stack that a call uses at most, from its caller's frame on: fit and refine; fit and refine where they are refused; follow and count.
 * A thread that makes such a call needs so much on top of its own.
 */
#define MOQRESAM_STACK_OF_TWO_TABLES 1179648u
#define MOQRESAM_STACK_OF_REFUSAL 557056u
#define MOQRESAM_STACK_OF_ONE_TABLE 1024u

/* ---- Tables */

/*
 * A table (interface automaton) has states, numbered from 0; its first (initial) state; its inputs and its outputs, two sets of the signals (actions)
 * 0 to 31, where bit s is 1 if signal s is in the set; and 32 cells for each state. The cell of a state and a signal is the next state, or
 * MOQRESAM_NO_STEP.
 *
 * A cell is two bytes, low byte first, and stands at (state * MOQRESAM_SIGNALS + signal) * MOQRESAM_CELL_BYTES. So the right cells_length is
 * states * MOQRESAM_STATE_BYTES. The calls only read the cells: they may be constants.
 */
typedef struct {
    size_t states;
    size_t initial;
    uint32_t inputs;
    uint32_t outputs;
    const uint8_t *cells;
    size_t cells_length;
} moqresam_table;

/* Where the cell of a state and a signal begins. */
static inline size_t moqresam_cell_start(size_t state, size_t signal)
{
    return (state * MOQRESAM_SIGNALS + signal) * MOQRESAM_CELL_BYTES;
}

/* Reads a cell: the next state, or MOQRESAM_NO_STEP. The state and the signal have to exist. */
static inline size_t moqresam_read_cell(const uint8_t *cells, size_t state, size_t signal)
{
    const uint8_t *cell = cells + moqresam_cell_start(state, signal);

    return cell[0] + 256u * cell[1];
}

/* Writes a cell: `next` is the next state, or MOQRESAM_NO_STEP, so 65,535 at most: it has 16 bits. The state and the signal have to exist. */
static inline void moqresam_write_cell(uint8_t *cells, size_t state, size_t signal, size_t next)
{
    uint8_t *cell = cells + moqresam_cell_start(state, signal);

    cell[0] = next & 255u;
    cell[1] = next >> 8 & 255u;
}

/* Makes a table without steps, whose first state is 0, over cells that the caller keeps as long: states * MOQRESAM_STATE_BYTES bytes. */
static inline moqresam_table moqresam_blank_table(uint8_t *cells, size_t states, uint32_t inputs, uint32_t outputs)
{
    moqresam_table table = {states, 0, inputs, outputs, cells, states * MOQRESAM_STATE_BYTES};
    size_t k;

    for (k = 0; k < table.cells_length; k++)
        cells[k] = 255;
    return table;
}

/* The pairs of a state of `a` and a state of `b`, so the length that flags and marks have to have. The pair (p, q) is number p * b->states + q. */
static inline size_t moqresam_pairs(const moqresam_table *a, const moqresam_table *b)
{
    return a->states * b->states;
}

/* ---- Refusals */

/*
 * Why a call is refused: the `number` of a reply. These are the numbers that the calls below give. moqresam_refusal_text has words for them and for
 * the further ones that the program prints; docs/REFERENCE.md has the same words, and what helps.
 */
enum moqresam_refusal {
    MOQRESAM_ACCEPTED = 0,
    MOQRESAM_REFUSED_STATES = 1,
    MOQRESAM_REFUSED_INITIAL = 2,
    MOQRESAM_REFUSED_SHARED = 3,
    MOQRESAM_REFUSED_CELL_COUNT = 4,
    MOQRESAM_REFUSED_CELL = 5,
    MOQRESAM_REFUSED_UNDECLARED = 6,
    MOQRESAM_REFUSED_OUTPUT_OF_BOTH = 7,
    MOQRESAM_REFUSED_PAIRS = 9,
    MOQRESAM_REFUSED_BUFFER = 10,
    MOQRESAM_REFUSED_STATE = 11,
    MOQRESAM_REFUSED_SIGNAL = 12
};

/* Says a refusal's number in words: never NULL, and never to be freed. */
static inline const char *moqresam_refusal_text(uint32_t number)
{
    switch (number) {
    case MOQRESAM_ACCEPTED: return "accepted";
    case MOQRESAM_REFUSED_STATES: return "a table has no state, or more than 4,096";
    case MOQRESAM_REFUSED_INITIAL: return "the first state does not exist";
    case MOQRESAM_REFUSED_SHARED: return "a signal is both input and output of one table";
    case MOQRESAM_REFUSED_CELL_COUNT: return "the cells are not 32 a state (in C, not 64 bytes a state)";
    case MOQRESAM_REFUSED_CELL: return "a cell is neither a state nor 65,535";
    case MOQRESAM_REFUSED_UNDECLARED: return "a cell has a step for a signal that the table does not declare";
    case MOQRESAM_REFUSED_OUTPUT_OF_BOTH: return "a signal is an output of both tables";
    case 8: return "the plan does not declare a signal of the module, or an output of the module is not an output of the plan";
    case MOQRESAM_REFUSED_PAIRS: return "there are more than 4,096 pairs of states";
    case MOQRESAM_REFUSED_BUFFER: return "a lent buffer has the wrong length, or the program gets more than 1,024 states or pairs";
    case MOQRESAM_REFUSED_STATE: return "the follower's state does not exist";
    case MOQRESAM_REFUSED_SIGNAL: return "the signal is above 31, or not declared";
    case 13: return "the text is longer than 65,536 bytes";
    case 14: return "a line lacks its LF, has an unknown kind, or has the wrong number of fields";
    case 15: return "a line is out of place";
    case 16: return "the name breaks the name rule (1 to 16 ASCII letters, digits, underscores)";
    case 17: return "the number breaks the number rule (1 to 5 digits, no needless leading zero, at most 65,535)";
    case 18: return "a signal is declared twice in one table";
    case 19: return "a step has a signal that its own table does not declare, or a state that does not exist";
    case 20: return "a second step for the same state and signal";
    case 21: return "there are more than 32 signals";
    case 22: return "the text is empty";
    case 23: return "the text to be written is longer than the lent buffer, or than 65,536 bytes";
    case 24: return "a file cannot be read";
    case 28: return "the name differs from an earlier one only in upper and lower case";
    default: return "unknown refusal number";
    }
}

/*
 * The `table` of a reply is the one at fault: 1 the first or only one, 2 the second, 0 neither (accepted, and 7 to 10).
 *
 * The last three fields of every reply, the place, say where that table is at fault. With 1 to 6 placed is true; cell_state and cell_signal are
 *
 *   1 to 4  0 and 0: no cell in particular;
 *   5       the first cell that is bad by 5, in state order, then signal order, even if an earlier one is bad by 6; in a reply of the follower,
 *           its own cell: the state and the signal given;
 *   6       the first cell that is bad by 6, in the same order.
 *
 * In all other replies (accepted, "not now", 7 and up) there is no place: placed is false, cell_state and cell_signal are 0.
 */

/* ---- Fit */

/*
 * Whether two tables fit (are compatible). Checks: 1 to 6 of each table, 7, 9, 10. The flags have one byte for each pair, moqresam_pairs of them.
 *
 * Accepted: compatible is true if the first pair, that of the two first states, is kept; rounds counts the rounds that drop a pair; the flag of a
 * pair is 1 if the pair is kept and 0 if it is dropped, whether the tables fit or not.
 * Refused: number and table say why, compatible is false, rounds is 0.
 */
typedef struct {
    uint32_t number;
    uint32_t table;
    bool compatible;
    size_t rounds;
    bool placed;
    size_t cell_state;
    size_t cell_signal;
} moqresam_fit_reply;

/* The archive's call, which takes the parts of the tables one by one; moqresam_fit_tables is the same, and shorter. */
moqresam_fit_reply moqresam_fit(
    size_t states_a, size_t initial_a, uint32_t inputs_a, uint32_t outputs_a, const uint8_t *cells_a, size_t cells_a_length,
    size_t states_b, size_t initial_b, uint32_t inputs_b, uint32_t outputs_b, const uint8_t *cells_b, size_t cells_b_length,
    uint8_t *flags, size_t flags_length);

static inline moqresam_fit_reply moqresam_fit_tables(
    const moqresam_table *a, const moqresam_table *b, uint8_t *flags, size_t flags_length)
{
    return moqresam_fit(
        a->states, a->initial, a->inputs, a->outputs, a->cells, a->cells_length,
        b->states, b->initial, b->inputs, b->outputs, b->cells, b->cells_length, flags, flags_length);
}

/*
 * How many of the bytes are 1; any other byte counts nothing. Any length will do, and nothing is refused. Of the flags of an accepted fit it is the
 * number of kept pairs, of the marks of an accepted refinement the number of related ones.
 */
size_t moqresam_count_kept(const uint8_t *flags, size_t flags_length);

/* ---- Refinement */

/*
 * Whether the first table refines the second. Checks: 1 to 6 of each table, 9, 10. The marks have one byte for each pair, moqresam_pairs of them.
 *
 * Accepted: refines is the verdict; the mark of a pair is 1 if the largest alternating simulation relates its states, else 0. Where the inputs and
 * outputs alone forbid refinement, all marks are 0.
 * Refused: number and table say why, refines is false.
 */
typedef struct {
    uint32_t number;
    uint32_t table;
    bool refines;
    bool placed;
    size_t cell_state;
    size_t cell_signal;
} moqresam_refine_reply;

/* The archive's call, which takes the parts of the tables one by one; moqresam_refine_tables is the same, and shorter. */
moqresam_refine_reply moqresam_refine(
    size_t states_a, size_t initial_a, uint32_t inputs_a, uint32_t outputs_a, const uint8_t *cells_a, size_t cells_a_length,
    size_t states_b, size_t initial_b, uint32_t inputs_b, uint32_t outputs_b, const uint8_t *cells_b, size_t cells_b_length,
    uint8_t *marks, size_t marks_length);

static inline moqresam_refine_reply moqresam_refine_tables(
    const moqresam_table *a, const moqresam_table *b, uint8_t *marks, size_t marks_length)
{
    return moqresam_refine(
        a->states, a->initial, a->inputs, a->outputs, a->cells, a->cells_length,
        b->states, b->initial, b->inputs, b->outputs, b->cells, b->cells_length, marks, marks_length);
}

/* ---- The follower */

/*
 * Where a signal leads from a state: the follower (monitor) of a table. Checks: 1 to 4, 11, 12, then 5 of the one cell that it reads.
 *
 * A step: number is 0, moved is true, state is the new state.
 * "Not now": number is 0, moved is false, state is the state given.
 * Refused: number says why, table is 1, moved is false, state is the state given.
 */
typedef struct {
    uint32_t number;
    uint32_t table;
    bool moved;
    size_t state;
    bool placed;
    size_t cell_state;
    size_t cell_signal;
} moqresam_follow_reply;

/* The archive's call, which takes the parts of the table one by one; moqresam_follow_table is the same, and shorter. */
moqresam_follow_reply moqresam_follow(
    size_t states, size_t initial, uint32_t inputs, uint32_t outputs, const uint8_t *cells, size_t cells_length,
    size_t state, size_t signal);

static inline moqresam_follow_reply moqresam_follow_table(const moqresam_table *table, size_t state, size_t signal)
{
    return moqresam_follow(
        table->states, table->initial, table->inputs, table->outputs, table->cells, table->cells_length, state, signal);
}

/*
 * The follower as a record that the caller lends: after a step it holds the new state; after "not now" or a refusal it is as it was. The reply is
 * that of moqresam_follow from the state that the record held.
 */
typedef struct {
    size_t state;
} moqresam_follower;

/* The archive's call, which takes the parts of the table one by one; moqresam_follow_table_record is the same, and shorter. */
moqresam_follow_reply moqresam_follow_record(
    size_t states, size_t initial, uint32_t inputs, uint32_t outputs, const uint8_t *cells, size_t cells_length,
    moqresam_follower *follower, size_t signal);

static inline moqresam_follow_reply moqresam_follow_table_record(
    const moqresam_table *table, moqresam_follower *follower, size_t signal)
{
    return moqresam_follow_record(
        table->states, table->initial, table->inputs, table->outputs, table->cells, table->cells_length, follower, signal);
}

#ifdef __cplusplus
}
#endif

#endif
