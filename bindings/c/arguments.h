/* What calls.c can see of the arguments that C passes, and how it puts a valid address in place of a pointer to nothing.
 *
 * Usable is a pointer that is not null and is aligned for its type, and an array that is no longer than an object can be. Whether such an
 * object is there, nobody can see. */
#ifndef ARGUMENTS_H
#define ARGUMENTS_H

#include "fullercoral.h"

enum { MOST_COLUMNS = 16, MOST_TESTS = 4 };

/* --- Pointers --------------------------------------------------------------------------------------------------------------------- */

/* (With this the compiler tests one thing after the other, and an insert takes 4 ns less.) */
#define USUALLY(condition) __builtin_expect((condition), true)

static inline bool is_usable(const void *pointer, size_t alignment) {
    return USUALLY(pointer != NULL && (uintptr_t)pointer % alignment == 0);
}

/* The pointer of an array without elements is not looked at. */
static inline bool is_usable_array(const void *pointer, size_t len, size_t size, size_t alignment) {
    return len == 0 || (is_usable(pointer, alignment) && len <= PTRDIFF_MAX / size);
}

#define IS_USABLE(pointer) is_usable(pointer, __alignof__(*(pointer)))
#define IS_USABLE_ARRAY(pointer, len) is_usable_array(pointer, len, sizeof *(pointer), __alignof__(*(pointer)))

/* Whether two usable arrays have no byte in common. */
static inline bool are_apart(const void *one, size_t one_size, const void *other, size_t other_size) {
    const uintptr_t begin = (uintptr_t)one, other_begin = (uintptr_t)other;
    return one_size == 0 || other_size == 0 || begin + one_size <= other_begin || other_begin + other_size <= begin;
}

#define ARE_APART(one, one_len, other, other_len) are_apart(one, (one_len) * sizeof *(one), other, (other_len) * sizeof *(other))

/* The address of a usable array; of one without elements a valid one, which nobody reads or writes. */
static inline void *address_of(const void *array, size_t len) {
    static max_align_t nothing;
    return len == 0 ? &nothing : (void *)(uintptr_t)array;
}

/* Why a call is refused that got what is not usable. A closed handle comes first, and one that is not usable is closed. */
static __attribute__((cold, noinline)) uint32_t refusal(const fc_table *table) {
    return !IS_USABLE(table) || table->at == NULL ? FC_CLOSED : FC_BAD_ARGUMENT;
}

/* --- Texts and cells -------------------------------------------------------------------------------------------------------------- */

static inline bool is_usable_text(fc_bytes text) { return text.at != NULL ? text.len <= PTRDIFF_MAX : text.len == 0; }

/* A usable text, with an address that is not null. */
static inline fc_bytes text_of(fc_bytes text) { return text.at != NULL ? text : fc_no_bytes; }

/* Whether each text is usable and has an address. */
static inline bool have_addresses(const fc_cell *cells, size_t len) {
    for (size_t i = 0; i < len; i++)
        if (!USUALLY(cells[i].text.at != NULL) || !USUALLY(cells[i].text.len <= PTRDIFF_MAX)) return false;
    return true;
}

/* Whether these can be the cells of a row, and are usable without a copy. */
static inline bool is_usable_row(const fc_cell *cells, size_t len) {
    return IS_USABLE(cells) && USUALLY(len <= MOST_COLUMNS) && have_addresses(cells, len);
}

/* Cells of which each has a usable text, with an address: a copy in `room` of at most MOST_COLUMNS; more only if they are so. Else NULL. */
static inline const fc_cell *usable_cells(const fc_cell *cells, size_t len, fc_cell *room) {
    if (!IS_USABLE_ARRAY(cells, len)) return NULL;
    if (len > MOST_COLUMNS) return have_addresses(cells, len) ? cells : NULL;
    for (size_t i = 0; i < len; i++) {
        if (!is_usable_text(cells[i].text)) return NULL;
        room[i] = (fc_cell){cells[i].number, text_of(cells[i].text), cells[i].kind};
    }
    return room;
}

/* The same of one cell, without a copy if its text has an address. */
static inline const fc_cell *usable_cell(const fc_cell *cell, fc_cell *room) {
    return IS_USABLE(cell) && have_addresses(cell, 1) ? cell : usable_cells(cell, 1, room);
}

/* --- Specifications --------------------------------------------------------------------------------------------------------------- */

/* The same of tests, of which there is room for MOST_TESTS. */
static inline const fc_test *usable_tests(const fc_test *tests, size_t len, fc_test *room) {
    if (!IS_USABLE_ARRAY(tests, len)) return NULL;
    for (size_t i = 0; i < len; i++) {
        if (!is_usable_text(tests[i].text) || (len > MOST_TESTS && tests[i].text.at == NULL)) return NULL;
        if (len <= MOST_TESTS) room[i] = (fc_test){tests[i].number, text_of(tests[i].text), tests[i].column, tests[i].op};
    }
    return len > MOST_TESTS ? tests : room;
}

/* Copies a specification, its tests to `room`. Returns whether it is usable: what it points to too, and its bool is one. */
static inline bool take_spec(const fc_spec *spec, fc_spec *taken, fc_test *room) {
    if (!IS_USABLE(spec) || *(const unsigned char *)&spec->has_key > 1) return false;
    *taken = *spec;
    taken->tests = usable_tests(spec->tests, spec->tests_len, room);
    return taken->tests != NULL;
}

/* --- Columns ---------------------------------------------------------------------------------------------------------------------- */

/* Copies a column. Returns whether it is usable, and what it points to too. */
static inline bool take_column(const fc_column *column, fc_column *taken) {
    if (!IS_USABLE(column) || !IS_USABLE_ARRAY(column->numbers, column->numbers_len) ||
        !IS_USABLE_ARRAY(column->offsets, column->offsets_len) || !IS_USABLE_ARRAY(column->bytes, column->bytes_len) ||
        !IS_USABLE_ARRAY(column->valid, column->valid_len))
        return false;
    *taken = *column;
    taken->numbers = address_of(column->numbers, column->numbers_len);
    taken->offsets = address_of(column->offsets, column->offsets_len);
    taken->bytes = address_of(column->bytes, column->bytes_len);
    taken->valid = address_of(column->valid, column->valid_len);
    return true;
}

/* Copies columns, of which no table has more than MOST_COLUMNS. Returns whether they are usable. */
static inline bool take_columns(const fc_column *columns, size_t len, fc_column taken[MOST_COLUMNS]) {
    if (len > MOST_COLUMNS) return false;
    for (size_t i = 0; i < len; i++)
        if (!take_column(&columns[i], &taken[i])) return false;
    return true;
}

#endif
