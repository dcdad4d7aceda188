/* What the calls pass on to the proved ones, in whose place this file has a function of its own: never a null pointer, also for arrays and
 * texts of length 0. Prints 'N passed, M failed' in the end. */
#include <stdio.h>
#include "each_call.h"

static unsigned long passed, failed;

static void check(bool holds, const char *what) {
    passed += holds;
    failed += !holds;
    if (!holds) printf("%s\n", what);
}

/* The arguments of the last call that was passed on. All of them are numbers or pointers, and the stack has those after the sixth. */
static uint64_t got[12];
static bool was_called;
/* Looks at what they point to. */
static bool (*is_right)(void);

uint32_t proved(uint64_t a, uint64_t b, uint64_t c, uint64_t d, uint64_t e, uint64_t f, uint64_t g, uint64_t h, uint64_t i, uint64_t j,
                uint64_t k, uint64_t l);

uint32_t proved(uint64_t a, uint64_t b, uint64_t c, uint64_t d, uint64_t e, uint64_t f, uint64_t g, uint64_t h, uint64_t i, uint64_t j,
                uint64_t k, uint64_t l) {
    memcpy(got, (uint64_t[12]){a, b, c, d, e, f, g, h, i, j, k, l}, sizeof got);
    was_called = is_right == NULL || is_right();
    return FC_NOTHING;
}

#define IN_PLACE_OF(name, pointers, list) __asm__(".globl fc_proved_" #name "\n.set fc_proved_" #name ", proved\n");
EACH_CALL(IN_PLACE_OF)
IN_PLACE_OF(open, 3, ())

/* --- Each call -------------------------------------------------------------------------------------------------------------------- */

static fc_table table = {&table};

/* A call with right arguments is passed on, once. One with a spoiled pointer is not. */
static void each_call(void) {
    for (size_t call = 0; call < EACH_LEN; call++) {
        for (unsigned which = 0; which <= EACH[call].pointers; which++) {
            arguments a = fresh_arguments();
            was_called = false;
            const uint32_t code = spoiled_call(call, &table, &a, which, false);
            check(was_called == !spoiled.is_spoiled && is_unwritten(&a), EACH[call].name);
            check(!was_called || (code == FC_NOTHING && got[0] == (uintptr_t)&table), EACH[call].name);
        }
    }
}

/* --- Empty arrays ----------------------------------------------------------------------------------------------------------------- */

#define PASSES(call, condition)                                      \
    do {                                                             \
        was_called = false;                                          \
        check((call) == FC_NOTHING && was_called, #call);            \
        check((condition), #call " passes what is not " #condition); \
    } while (0)

static void empty_arrays(void) {
    const uint32_t kinds[1] = {FC_INT};
    const fc_limits limits = {0};
    fc_table closed = {NULL};
    size_t count;
    uint32_t number;
    PASSES(fc_open(&closed, NULL, 0, &limits, 1), got[1] != 0 && got[2] == 0);
    PASSES(fc_open(&closed, kinds, 0, &limits, 1), got[1] != 0 && got[2] == 0);
    PASSES(fc_open(&closed, kinds, 1, &limits, 1), got[1] == (uintptr_t)kinds && got[2] == 1);
    PASSES(fc_insert(&table, NULL, 0, &number), got[1] != 0 && got[2] == 0);
    PASSES(fc_insert_columns(&table, NULL, 0, 0, &count), got[1] != 0 && got[2] == 0);
    PASSES(fc_set_column(&table, 1, NULL, 0, &(fc_column){.kind = FC_INT}, &count), got[2] != 0 && got[3] == 0);
    PASSES(fc_lines(&table, 0, NULL, 0, &count), got[2] != 0 && got[3] == 0);
    PASSES(fc_row(&table, 0, NULL, 0), got[2] != 0 && got[3] == 0);
    PASSES(fc_numbers(&table, 1, 2, 2, NULL, 0, NULL, 0, NULL, 0), got[4] != 0 && got[6] != 0 && got[8] != 0);
    PASSES(fc_texts(&table, 1, 2, 2, NULL, 0, NULL, 0, NULL, 0, NULL, 0), got[4] != 0 && got[6] != 0 && got[8] != 0 && got[10] != 0);
    PASSES(fc_proposals(&table, 1, NULL, 0, &count), got[2] != 0 && got[3] == 0);
    PASSES(fc_deliver(&table, 1, 2, NULL, 0), got[3] != 0 && got[4] == 0);
    PASSES(fc_deliver_copy(&table, 1, 2, NULL, 0), got[3] != 0 && got[4] == 0);
}

/* --- What structs point to -------------------------------------------------------------------------------------------------------- */

static bool are_cells(const fc_cell *cells, size_t len) {
    for (size_t i = 0; i < len; i++)
        if (cells[i].text.at == NULL || cells[i].text.len != 0 || cells[i].number != 7 || cells[i].kind != i % 3) return false;
    return true;
}

static bool is_row(void) { return are_cells((const fc_cell *)got[1], got[2]); }

static bool is_cell(void) { return are_cells((const fc_cell *)got[3], 1); }

static bool is_key(void) { return are_cells((const fc_cell *)got[1], 1); }

static bool is_asked_key(void) { return are_cells((const fc_cell *)got[2], 1); }

static bool is_spec(void) {
    const fc_spec *spec = (const fc_spec *)got[1];
    for (size_t i = 0; i < spec->tests_len; i++) {
        const fc_test *test = &spec->tests[i];
        if (test->text.at == NULL || test->text.len != 0 || test->number != 7 || test->column != i || test->op != FC_LT) return false;
    }
    return spec->tests != NULL && spec->fold == FC_EXTREMA && spec->value == 1 && spec->key == 2 && spec->has_key;
}

static bool is_column(const fc_column *it) {
    return it->numbers != NULL && it->offsets != NULL && it->bytes != NULL && it->valid != NULL && it->kind == FC_INT &&
           it->numbers_len == 0 && it->offsets_len == 0 && it->bytes_len == 0 && it->valid_len == 0;
}

static bool are_columns(void) { return got[2] == 2 && is_column((const fc_column *)got[1]) && is_column((const fc_column *)got[1] + 1); }

static bool is_set_column(void) { return is_column((const fc_column *)got[4]); }

/* Null pointers to nothing become pointers to nothing that are not null, and all else stays as it was. */
static void empty_parts(void) {
    fc_cell cells[16];
    fc_test tests[4];
    const fc_column columns[2] = {{.kind = FC_INT}, {.kind = FC_INT}};
    uint32_t number;
    size_t count;
    fc_line line;
    for (uint32_t i = 0; i < 16; i++) cells[i] = (fc_cell){.number = 7, .kind = i % 3};
    for (uint32_t i = 0; i < 4; i++) tests[i] = (fc_test){.number = 7, .column = i, .op = FC_LT};
    is_right = is_row;
    for (size_t len = 1; len <= 16; len++) PASSES(fc_insert(&table, cells, len, &number), got[2] == len);
    is_right = is_cell;
    PASSES(fc_set(&table, 1, 2, cells), got[1] == 1 && got[2] == 2);
    is_right = is_key;
    PASSES(fc_find(&table, cells, &count), true);
    is_right = is_asked_key;
    PASSES(fc_ask_key(&table, 5, cells, &line), got[1] == 5);
    is_right = is_spec;
    for (size_t len = 0; len <= 4; len++)
        PASSES(fc_watch(&table, &(fc_spec){tests, len, FC_EXTREMA, 1, 2, true}, &number), true);
    PASSES(fc_watch(&table, &(fc_spec){NULL, 0, FC_EXTREMA, 1, 2, true}, &number), true);
    is_right = are_columns;
    PASSES(fc_insert_columns(&table, columns, 2, 9, &count), got[3] == 9);
    is_right = is_set_column;
    PASSES(fc_set_column(&table, 3, &number, 1, columns, &count), got[1] == 3 && got[2] == (uintptr_t)&number && got[3] == 1);
    is_right = NULL;
}

int main(void) {
    each_call();
    empty_arrays();
    empty_parts();
    printf("%lu passed, %lu failed\n", passed, failed);
    return failed != 0;
}
