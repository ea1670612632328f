/* The library's calls in plain C, as a baseline for the benchmarks: the same checks, the same results. */
#ifndef PLAIN_H
#define PLAIN_H

#include <stdbool.h>
#include <stddef.h>
#include <stdint.h>

/* An interface automaton: 32 cells for each state. */
struct table {
    size_t states;
    size_t initial;
    uint32_t inputs;
    uint32_t outputs;
    const uint16_t *cells;
    size_t count;
};

/* A part of a text, or a name. */
struct part {
    const uint8_t *bytes;
    size_t length;
};

/* Cells that are lent to a reading. */
struct cells {
    uint16_t *cells;
    size_t count;
};

/* The reply of every call but the counts, the search, the lister and the report, field for field that of the archive. */
struct reply {
    uint32_t number;
    uint32_t table;
    size_t line;
    bool yes;
    size_t value;
    size_t states;
    size_t initial;
    uint32_t inputs;
    uint32_t outputs;
    size_t states_2;
    size_t initial_2;
    uint32_t inputs_2;
    uint32_t outputs_2;
    bool placed;
    size_t cell_state;
    size_t cell_signal;
};

struct reply plain_judge(const struct table *t);
struct reply plain_fit(const struct table *a, const struct table *b, uint8_t *flags, size_t length);
struct reply plain_refine(const struct table *a, const struct table *b, uint8_t *marks, size_t length);
struct reply plain_synthesize(const struct table *a, const struct table *b, uint16_t *cells, size_t count, uint8_t *flags, size_t length);
size_t plain_count_kept(const uint8_t *flags, size_t length);
size_t plain_count_ends(const struct table *t, const uint8_t *flags, size_t length);
void plain_mark_reached(uint8_t *marks, size_t length, size_t initial, const uint32_t *sets, size_t count, const uint16_t *cells, size_t size);
struct reply plain_follow(const struct table *t, size_t state, size_t signal);
struct reply plain_read_together(struct part m, struct part p, struct cells cm, struct cells cp);
struct reply plain_read_archive_together(struct part m, struct part p, struct cells cm, struct cells cp);
size_t plain_list(struct part m, struct part p, struct cells cm, struct cells cp, uint8_t *out, size_t length);
struct reply plain_write(const struct table *t, struct part name, const struct part *names, size_t count, uint8_t *out, size_t length);
size_t plain_report(struct part m, struct part p, struct cells cm, struct cells cp, struct cells cells, uint8_t *flags, size_t room, uint8_t *out,
                    size_t length);

#endif
