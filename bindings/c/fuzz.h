/* What the parts of the fuzzer share: bytes that are a program of calls, a heap that refuses one allocation, a plain table beside the
 * library's, and storage that may lie. */
#ifndef FUZZ_H
#define FUZZ_H

#include <stdio.h>
#include <stdlib.h>
#include <string.h>
#include "fullercoral.h"

#define MOST_COLUMNS 3
#define MOST_PLACES 48
#define MOST_CONTENTS 64
#define MOST_JOBS 512
#define SHORT_TEXT 24
#define LONGEST_TEXT 4096
#define NONE UINT32_MAX

/* Ends the process: the library did what it should not. */
extern uint64_t input;
#define FAIL(what) (fprintf(stderr, "fuzz: input %llu: %s (%s:%d)\n", (unsigned long long)input, what, __FILE__, __LINE__), abort())
#define HOLDS(condition)                    \
    do {                                    \
        if (!(condition)) FAIL(#condition); \
    } while (0)

/* --- The program ------------------------------------------------------------------------------------------------------------------ */

/* What is left of the bytes. */
typedef struct {
    const uint8_t *at;
    size_t left;
} program;

uint8_t next_byte(program *it);
/* A number below `end` as a rule; for a few bytes one that is not, or a wild one. */
uint32_t next_number(program *it, uint32_t end);

/* --- The heap --------------------------------------------------------------------------------------------------------------------- */

/* Counts from 0 and refuses the allocation of this number; none if it is 0. */
void begin_heap(unsigned long refused);
/* Whether an allocation was refused since this was last asked. */
bool was_refused(void);
/* Ends the process if a block is left. */
void end_heap(void);

/* --- The plain table -------------------------------------------------------------------------------------------------------------- */

/* A cell. A text that is longer than SHORT_TEXT consists of the letter x. */
typedef struct {
    uint32_t kind;
    int64_t number;
    size_t len;
    uint8_t text[SHORT_TEXT];
} plain_cell;

typedef struct {
    fc_table table;
    bool is_open;
    uint32_t kinds[MOST_COLUMNS], columns;
    fc_limits limits;
    uint64_t capacity;
    plain_cell rows[MOST_PLACES][MOST_COLUMNS];
    bool alive[MOST_PLACES];
    uint32_t places;
    uint64_t edits, begun, faults;
    uint32_t last; /* the last code of 1 to 24 */
    uint32_t total; /* the aggregate that is looked at after each call, and the column that it sums; NONE if there is none */
    uint32_t summed;
    struct {
        uint8_t *at;
        size_t len;
    } shelf[MOST_CONTENTS];
} world;

/* A cell of the program's bytes, now and then of a kind that there is not, or no UTF-8. */
plain_cell next_cell(program *it, uint32_t kind);
fc_cell raw_cell(const plain_cell *cell);
bool is_same_cell(const plain_cell *due, const fc_cell *came);
bool is_utf8(const uint8_t *text, size_t len);
/* What an edit is refused with before any object is looked at; FC_OK if with nothing of that. */
uint32_t row_refusal(const world *w, const plain_cell *row, uint32_t len);
uint32_t cell_refusal(const world *w, uint32_t column, uint32_t place, const plain_cell *cell);
uint32_t place_refusal(const world *w, uint32_t place);

/* --- The calls -------------------------------------------------------------------------------------------------------------------- */

/* Takes note of what a call returned: FC_OK, FC_CLOSED if the handle is closed and only then, or one of the list, which ends with 0.
 * FC_NO_MEMORY comes only if an allocation was refused. Returns the code. */
uint32_t seen(world *w, uint32_t code, const uint32_t *allowed);
#define CODES(...) ((const uint32_t[]){__VA_ARGS__, 0})

/* The same of a call that the fuzzer makes for itself, whatever it returns. */
uint32_t noted(world *w, uint32_t code);

void open_table(world *w, program *it);
void close_table(world *w, program *it);
/* Makes any call with one of its pointers null: it is refused, and writes nothing. */
void call_with_null(world *w, program *it);

/* A call with arguments of the program, and checks of what it returns. */
typedef void call(world *w, program *it);
extern call *const EDITS[], *const ASKS[], *const READS[], *const MOVES[], *const JOBS[];
extern const uint32_t EDITS_LEN, ASKS_LEN, READS_LEN, MOVES_LEN, JOBS_LEN;

/* Looks at what needs no object: counts, and the sum of one aggregate. */
void look(world *w);
/* Reads all rows that are local. */
void look_at_rows(world *w);

#endif
