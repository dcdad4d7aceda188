/* Each call of the header but fc_open, with arguments that it could take, of which one pointer is spoiled: null, or not aligned. */
#ifndef EACH_CALL_H
#define EACH_CALL_H

#include <string.h>
#include "fullercoral.h"

/* What the calls are given, and what they write. */
typedef struct {
    uint32_t column, place, group, aggregate;
    uint64_t job;
    fc_cell cells[2];
    fc_column columns[2];
    fc_spec spec;
    uint32_t places[1];
    uint8_t content[1];
    size_t moved; /* how many rows or cells fc_insert_columns or fc_set_column says to have taken */
    struct {
        uint32_t number, second;
        uint64_t wide, second_wide;
        size_t count;
        int64_t values[1];
        uint64_t offsets[2];
        uint8_t bytes[1];
        bool valid[1], alive[1];
        uint32_t groups[2];
        fc_bytes lent;
        fc_cell row[2];
        fc_line lines[2];
        fc_sum sum;
        fc_aggregate about;
        fc_details details;
        fc_job job;
        fc_limits limits;
        fc_object object;
        fc_space space;
    } out;
} arguments;

/* Which pointer is spoiled, counted in the order in which the compiler makes them, and what came of it. */
static struct {
    unsigned which, made;
    bool is_misaligned;
    bool is_spoiled, is_handle;
} spoiled;

static void *argument(const void *pointer, size_t alignment, bool is_handle) {
    char *const address = (char *)(uintptr_t)pointer;
    if (spoiled.made++ != spoiled.which || (spoiled.is_misaligned && alignment == 1)) return address;
    spoiled.is_spoiled = true;
    spoiled.is_handle = is_handle;
    return spoiled.is_misaligned ? address + 1 : NULL;
}

#define T argument(table, __alignof__(*table), true)
#define P(pointer) argument(pointer, __alignof__(*(pointer)), false)

/* A line for each call: its name, how many pointers it takes, and its arguments. */
#define EACH_CALL(CALL)                                                                                                                    \
    CALL(close, 1, (T))                                                                                                                    \
    CALL(last_refusal, 2, (T, P(&a->out.details)))                                                                                         \
    CALL(insert, 3, (T, P(a->cells), 2, P(&a->out.number)))                                                                                \
    CALL(insert_columns, 3, (T, P(a->columns), 2, 1, P(&a->moved)))                                                                        \
    CALL(set, 2, (T, a->column, a->place, P(&a->cells[1])))                                                                                \
    CALL(set_column, 4, (T, a->column, P(a->places), 1, P(&a->columns[1]), P(&a->moved)))                                                  \
    CALL(remove, 1, (T, a->place))                                                                                                         \
    CALL(watch, 3, (T, P(&a->spec), P(&a->out.number)))                                                                                    \
    CALL(unwatch, 1, (T, a->aggregate))                                                                                                    \
    CALL(scan, 1, (T, a->aggregate, a->group))                                                                                             \
    CALL(pending, 3, (T, a->aggregate, P(&a->out.number), P(&a->out.second)))                                                              \
    CALL(ask, 2, (T, a->aggregate, P(&a->out.count)))                                                                                      \
    CALL(recount, 2, (T, a->aggregate, P(&a->out.count)))                                                                                  \
    CALL(line_at, 2, (T, 0, P(a->out.lines)))                                                                                              \
    CALL(lines, 3, (T, 0, P(a->out.lines), 2, P(&a->out.count)))                                                                           \
    CALL(find, 3, (T, P(a->cells), P(&a->out.count)))                                                                                      \
    CALL(ask_key, 3, (T, a->aggregate, P(a->cells), P(a->out.lines)))                                                                      \
    CALL(plain, 2, (T, a->aggregate, P(&a->out.sum)))                                                                                      \
    CALL(spec_of, 2, (T, a->aggregate, P(&a->out.about)))                                                                                  \
    CALL(row, 2, (T, a->place, P(a->out.row), 2))                                                                                          \
    CALL(is_alive, 2, (T, a->place, P(a->out.alive)))                                                                                      \
    CALL(numbers, 4, (T, a->column, 0, 1, P(a->out.values), 1, P(a->out.valid), 1, P(a->out.alive), 1))                                    \
    CALL(text, 3, (T, 0, a->place, P(&a->out.lent), P(a->out.valid)))                                                                      \
    CALL(texts_size, 2, (T, 0, 0, 1, P(&a->out.count)))                                                                                    \
    CALL(texts, 5, (T, 0, 0, 1, P(a->out.offsets), 2, P(a->out.bytes), 1, P(a->out.valid), 1, P(a->out.alive), 1))                         \
    CALL(pin, 1, (T, a->column, a->group))                                                                                                 \
    CALL(unpin, 1, (T, a->column, a->group))                                                                                               \
    CALL(compact, 1, (T, FC_INT, 0))                                                                                                       \
    CALL(saw, 1, (T, a->column, a->group))                                                                                                 \
    CALL(proposals, 3, (T, a->column, P(a->out.groups), 2, P(&a->out.count)))                                                              \
    CALL(begin_evict, 2, (T, a->column, a->group, P(&a->out.wide)))                                                                        \
    CALL(begin_coldest, 2, (T, P(&a->out.wide)))                                                                                           \
    CALL(begin_fetch, 2, (T, a->column, a->group, P(&a->out.wide)))                                                                        \
    CALL(begin_offload, 2, (T, a->aggregate, a->group, P(&a->out.wide)))                                                                   \
    CALL(job_of, 2, (T, a->job, P(&a->out.job)))                                                                                           \
    CALL(wanted, 2, (T, a->job, 0, P(&a->out.wide)))                                                                                       \
    CALL(deliver, 2, (T, a->job, 0, P(a->content), 1))                                                                                     \
    CALL(carry, 1, (T, a->job))                                                                                                            \
    CALL(outgoing, 3, (T, a->job, P(&a->out.wide), P(&a->out.lent)))                                                                       \
    CALL(commit, 1, (T, a->job))                                                                                                           \
    CALL(install, 1, (T, a->job))                                                                                                          \
    CALL(merge, 1, (T, a->job))                                                                                                            \
    CALL(give_up, 1, (T, a->job))                                                                                                          \
    CALL(fault, 1, (T, a->job))                                                                                                            \
    CALL(deliver_copy, 2, (T, a->column, a->group, P(a->content), 1))                                                                      \
    CALL(migrate, 1, (T, 10))                                                                                                              \
    CALL(places, 2, (T, P(&a->out.number)))                                                                                                \
    CALL(columns, 2, (T, P(&a->out.number)))                                                                                               \
    CALL(kind_of, 2, (T, a->column, P(&a->out.number)))                                                                                    \
    CALL(limits_of, 2, (T, P(&a->out.limits)))                                                                                             \
    CALL(object_of, 2, (T, a->column, a->group, P(&a->out.object)))                                                                        \
    CALL(space_of, 2, (T, FC_INT, P(&a->out.space)))                                                                                       \
    CALL(faults, 2, (T, P(&a->out.wide)))                                                                                                  \
    CALL(jobs, 3, (T, P(&a->out.wide), P(&a->out.second_wide)))

#define DEFINED(name, pointers, list) \
    static uint32_t call_##name(fc_table *table, arguments *a) { return (void)a, fc_##name list; }
EACH_CALL(DEFINED)

#define LISTED(name, pointers, list) {"fc_" #name, pointers, call_##name},
static const struct {
    const char *name;
    unsigned pointers;
    uint32_t (*call)(fc_table *table, arguments *a);
} EACH[] = {EACH_CALL(LISTED)};

enum { EACH_LEN = sizeof EACH / sizeof *EACH };

/* Arguments for a row group of a column of texts and one of numbers, with nothing written yet. */
static arguments fresh_arguments(void) {
    static const int64_t number[1] = {7};
    static const uint64_t offsets[2] = {0, 3};
    arguments a = {.column = 1};
    a.cells[0] = (fc_cell){0, {(const uint8_t *)"rye", 3}, FC_TEXT};
    a.cells[1] = (fc_cell){7, fc_no_bytes, FC_INT};
    a.columns[0] = (fc_column){.offsets = offsets, .offsets_len = 2, .bytes = (const uint8_t *)"rye", .bytes_len = 3, .kind = FC_TEXT};
    a.columns[1] = (fc_column){.numbers = number, .numbers_len = 1, .kind = FC_INT};
    a.spec = (fc_spec){.fold = FC_TOTALS, .value = 1};
    a.moved = 99;
    memset(&a.out, 0xa5, sizeof a.out);
    return a;
}

/* Makes a call with this pointer spoiled. */
static uint32_t spoiled_call(size_t call, fc_table *table, arguments *a, unsigned which, bool is_misaligned) {
    memset(&spoiled, 0, sizeof spoiled);
    spoiled.which = which;
    spoiled.is_misaligned = is_misaligned;
    return EACH[call].call(table, a);
}

/* Whether a call wrote nothing, but that it took no rows or cells. */
static bool is_unwritten(const arguments *a) {
    const uint8_t *const bytes = (const uint8_t *)&a->out;
    for (size_t i = 0; i < sizeof a->out; i++)
        if (bytes[i] != 0xa5) return false;
    return a->moved == 99 || a->moved == 0;
}

#endif
