/* What calls do with pointers that are null, are not aligned or overlap, and with lengths that no array has: each pointer of each call
 * once, and what the structs point to. The heap is that of checks.h. Prints 'N passed, M failed' in the end. */
#include "checks.h"
#include "each_call.h"
#include "fullercoral.h"

static const uint32_t KINDS[2] = {FC_TEXT, FC_INT};
static const fc_limits LIMITS = {.edits = 1000, .group = 4, .places = 64, .int_segments = 16, .int_size = 4, .text_segments = 4,
                                 .text_size = 256};

static fc_cell int_cell(int64_t of) { return (fc_cell){.number = of, .kind = FC_INT}; }

static fc_cell text_cell(const char *of) { return (fc_cell){.text = {(const uint8_t *)of, strlen(of)}, .kind = FC_TEXT}; }

static uint32_t insert(fc_table *table, const char *of, int64_t quantity) {
    const fc_cell row[2] = {text_cell(of), int_cell(quantity)};
    uint32_t place;
    return fc_insert(table, row, 2, &place);
}

/* A table with three rows, with aggregate 0, by name, and its answer in the handle, and with job 0, a carried eviction. */
static void open_bakery(fc_table *table) {
    const fc_spec by_name = {.fold = FC_TOTALS, .value = 1, .has_key = true};
    uint32_t aggregate;
    uint64_t job;
    size_t lines;
    memset(table, 0, sizeof *table);
    OK(fc_open(table, KINDS, 2, &LIMITS, 1000));
    OK(insert(table, "bread", 5));
    OK(insert(table, "rye", 3));
    OK(insert(table, "", 2));
    OK(fc_watch(table, &by_name, &aggregate));
    OK(fc_scan(table, aggregate, 0));
    OK(fc_ask(table, aggregate, &lines));
    OK(fc_begin_evict(table, 1, 0, &job));
    OK(fc_carry(table, job));
    CHECK(aggregate == 0 && job == 0 && lines == 3);
}

/* --- Each pointer of each call ---------------------------------------------------------------------------------------------------- */

/* What can be read of a table, and changes with each call that does something. */
typedef struct {
    uint64_t faults, begun, waiting;
    fc_details why;
    fc_object objects[2];
    fc_space spaces[2];
    fc_sum sum;
    uint32_t places, pending, first;
    bool is_alive;
} state;

static state state_of(fc_table *table) {
    state of;
    memset(&of, 0, sizeof of);
    OK(fc_last_refusal(table, &of.why));
    OK(fc_faults(table, &of.faults));
    OK(fc_jobs(table, &of.begun, &of.waiting));
    for (uint32_t column = 0; column < 2; column++) {
        OK(fc_object_of(table, column, 0, &of.objects[column]));
        OK(fc_space_of(table, KINDS[column], &of.spaces[column]));
    }
    OK(fc_places(table, &of.places));
    OK(fc_pending(table, 0, &of.pending, &of.first));
    OK(fc_is_alive(table, 0, &of.is_alive));
    return of;
}

/* A call with one pointer spoiled is refused, and changes and writes nothing. Returns false if the call has no such pointer. */
static bool refuses(size_t call, unsigned which, bool is_misaligned) {
    fc_table table;
    arguments a = fresh_arguments();
    open_bakery(&table);
    const state before = state_of(&table);
    const uint32_t code = spoiled_call(call, &table, &a, which, is_misaligned);
    if (which == EACH[call].pointers) {
        check(!spoiled.is_spoiled && code != FC_BAD_ARGUMENT, EACH[call].name, __FILE__, __LINE__);
    } else if (spoiled.is_spoiled) {
        const state after = state_of(&table);
        check(code == (spoiled.is_handle ? FC_CLOSED : FC_BAD_ARGUMENT), EACH[call].name, __FILE__, __LINE__);
        check(is_unwritten(&a) && memcmp(&before, &after, sizeof before) == 0, EACH[call].name, __FILE__, __LINE__);
    }
    if (table.at != NULL) OK(fc_close(&table));
    return which < EACH[call].pointers;
}

static void each_pointer(void) {
    CHECK(EACH_LEN == 54);
    for (size_t call = 0; call < EACH_LEN; call++) {
        for (unsigned which = 0; refuses(call, which, false); which++) continue;
        for (unsigned which = 0; refuses(call, which, true); which++) continue;
    }
    CHECK(blocks == 0);
}

/* A closed handle comes before any other pointer. */
static void each_pointer_of_a_closed_handle(void) {
    for (size_t call = 0; call < EACH_LEN; call++) {
        for (unsigned which = 0; which <= EACH[call].pointers; which++) {
            fc_table table = {NULL};
            arguments a = fresh_arguments();
            const uint32_t code = spoiled_call(call, &table, &a, which, false);
            check(code == FC_CLOSED && is_unwritten(&a) && a.moved == 99, EACH[call].name, __FILE__, __LINE__);
        }
    }
}

static void opening(void) {
    fc_table table = {NULL};
    char *const odd = (char *)&table + 1;
    CODE(fc_open(NULL, KINDS, 2, &LIMITS, 10), FC_BAD_ARGUMENT);
    CODE(fc_open((void *)odd, KINDS, 2, &LIMITS, 10), FC_BAD_ARGUMENT);
    CODE(fc_open(&table, NULL, 2, &LIMITS, 10), FC_BAD_ARGUMENT);
    CODE(fc_open(&table, KINDS, 2, NULL, 10), FC_BAD_ARGUMENT);
    CODE(fc_open(&table, KINDS, SIZE_MAX, &LIMITS, 10), FC_BAD_ARGUMENT);
    CODE(fc_open(&table, NULL, 0, &LIMITS, 10), FC_BAD_SCHEMA);
    CHECK(table.at == NULL && blocks == 0);
    OK(fc_open(&table, KINDS, 2, &LIMITS, 10));
    CODE(fc_open(&table, NULL, 2, NULL, 10), FC_ALREADY_OPEN);
    OK(fc_close(&table));
}

/* --- What structs point to -------------------------------------------------------------------------------------------------------- */

/* Null is the empty text, and no text of a number; it has no bytes. */
static void texts_of_cells(void) {
    fc_table table;
    fc_cell row[17] = {{.kind = FC_TEXT}, int_cell(4)}, named[17];
    uint32_t place = 99;
    size_t index = 99;
    fc_line line;
    open_bakery(&table);
    OK(fc_insert(&table, row, 2, &place));
    CHECK(place == 3);
    OK(fc_set(&table, 0, 0, &row[0]));
    OK(fc_ask_key(&table, 0, &row[0], &line));
    CHECK(line.count == 3 && line.sum_low == 11 && line.key_text.at != NULL && line.key_text.len == 0);
    OK(fc_find(&table, &row[0], &index));
    CHECK(index == 0);
    for (int i = 0; i < 17; i++) named[i] = text_cell("x");
    CODE(fc_insert(&table, named, 17, &place), FC_WRONG_KIND);
    CODE(fc_insert(&table, row, 17, &place), FC_BAD_ARGUMENT);
    CODE(fc_insert(&table, row, 0, &place), FC_ROW_WIDTH);
    CODE(fc_insert(&table, NULL, 0, &place), FC_ROW_WIDTH);
    CODE(fc_insert(&table, NULL, 2, &place), FC_BAD_ARGUMENT);
    CODE(fc_insert(&table, row, 2, NULL), FC_BAD_ARGUMENT);
    CODE(fc_insert(NULL, row, 2, &place), FC_CLOSED);
    for (int i = 0; i < 2; i++) {
        row[i].text.len = 1;
        CODE(fc_insert(&table, row, 2, &place), FC_BAD_ARGUMENT);
        CODE(fc_set(&table, (uint32_t)i, 0, &row[i]), FC_BAD_ARGUMENT);
        CODE(fc_find(&table, &row[i], &index), FC_BAD_ARGUMENT);
        CODE(fc_ask_key(&table, 0, &row[i], &line), FC_BAD_ARGUMENT);
        row[i].text = (fc_bytes){(const uint8_t *)"x", SIZE_MAX};
        CODE(fc_insert(&table, row, 2, &place), FC_BAD_ARGUMENT);
        CODE(fc_set(&table, (uint32_t)i, 0, &row[i]), FC_BAD_ARGUMENT);
        row[i].text = (fc_bytes){NULL, 0};
    }
    CHECK(place == 3 && index == 0);
    OK(fc_close(&table));
}

static void tests_of_specifications(void) {
    fc_table table;
    fc_test tests[5] = {{.column = 0, .op = FC_TEXT_IS}, {.column = 1, .op = FC_GT, .number = 1}, {.op = FC_TEXT_BEGINS}};
    fc_spec spec = {.tests = tests, .tests_len = 3, .fold = FC_TOTALS, .value = 1};
    uint32_t aggregate = 99;
    size_t lines;
    fc_line line;
    open_bakery(&table);
    OK(fc_watch(&table, &spec, &aggregate));
    OK(fc_recount(&table, aggregate, &lines));
    OK(fc_line_at(&table, 0, &line));
    CHECK(aggregate == 1 && lines == 1 && line.count == 1 && line.sum_low == 2);
    spec.tests_len = 5;
    CODE(fc_watch(&table, &spec, &aggregate), FC_BAD_ARGUMENT);
    for (int i = 0; i < 5; i++) tests[i] = (fc_test){.text = fc_no_bytes};
    CODE(fc_watch(&table, &spec, &aggregate), FC_BAD_SPEC);
    spec.tests_len = 1;
    tests[0].text = (fc_bytes){NULL, 1};
    CODE(fc_watch(&table, &spec, &aggregate), FC_BAD_ARGUMENT);
    tests[0].text = (fc_bytes){(const uint8_t *)"x", SIZE_MAX};
    CODE(fc_watch(&table, &spec, &aggregate), FC_BAD_ARGUMENT);
    spec.tests = NULL;
    CODE(fc_watch(&table, &spec, &aggregate), FC_BAD_ARGUMENT);
    spec.tests = (void *)((char *)tests + 1);
    CODE(fc_watch(&table, &spec, &aggregate), FC_BAD_ARGUMENT);
    spec.tests_len = SIZE_MAX;
    CODE(fc_watch(&table, &spec, &aggregate), FC_BAD_ARGUMENT);
    spec.tests_len = 0;
    memset(&spec.has_key, 2, 1);
    CODE(fc_watch(&table, &spec, &aggregate), FC_BAD_ARGUMENT);
    spec.has_key = false;
    CHECK(aggregate == 1);
    OK(fc_watch(&table, &spec, &aggregate));
    CHECK(aggregate == 2);
    OK(fc_close(&table));
}

/* Columns that point to nothing where they have nothing; and to nothing where they should have something. */
static void parts_of_columns(void) {
    fc_table table;
    const arguments a = fresh_arguments();
    const uint64_t none[1] = {0};
    const fc_column empty[2] = {{.offsets = none, .offsets_len = 1, .kind = FC_TEXT}, {.kind = FC_INT}};
    const fc_column missing = {.offsets = (const uint64_t[2]){0, 0}, .offsets_len = 2, .kind = FC_TEXT};
    fc_column wrong[2], many[40];
    size_t count = 99;
    open_bakery(&table);
    OK(fc_insert_columns(&table, a.columns, 2, 1, &count));
    CHECK(count == 1);
    OK(fc_insert_columns(&table, (fc_column[2]){missing, a.columns[1]}, 2, 1, &count));
    CHECK(count == 1);
    OK(fc_insert_columns(&table, empty, 2, 0, &count));
    OK(fc_set_column(&table, 1, NULL, 0, &empty[1], &count));
    CHECK(count == 0);
    OK(fc_set_column(&table, 0, a.places, 1, &missing, &count));
    CHECK(count == 1);
    CODE(fc_insert_columns(&table, NULL, 0, 0, &count), FC_BAD_ARGUMENT);
    for (int i = 0; i < 40; i++) many[i] = a.columns[i % 2];
    CODE(fc_insert_columns(&table, many, 40, 1, &count), FC_BAD_ARGUMENT);
    CODE(fc_insert_columns(&table, many, SIZE_MAX, 1, &count), FC_BAD_ARGUMENT);
    CODE(fc_set_column(&table, 1, a.places, SIZE_MAX, &a.columns[1], &count), FC_BAD_ARGUMENT);
    for (int part = 0; part < 8; part++) {
        memcpy(wrong, a.columns, sizeof wrong);
        if (part == 0) wrong[1].numbers = NULL;
        if (part == 1) wrong[0].offsets = NULL;
        if (part == 2) wrong[0].bytes = NULL;
        if (part == 3) wrong[1].valid_len = 1;
        if (part == 4) wrong[1].numbers = (void *)((char *)(uintptr_t)a.columns[1].numbers + 1);
        if (part == 5) wrong[0].offsets = (void *)((char *)(uintptr_t)a.columns[0].offsets + 1);
        if (part == 6) wrong[0].bytes_len = SIZE_MAX;
        if (part == 7) wrong[1].offsets_len = 1;
        count = 99;
        CODE(fc_insert_columns(&table, wrong, 2, 1, &count), FC_BAD_ARGUMENT);
        CHECK(count == 0);
        const bool is_text = wrong[0].offsets != a.columns[0].offsets || wrong[0].bytes != a.columns[0].bytes || part == 6;
        count = 99;
        CODE(fc_set_column(&table, !is_text, a.places, 1, &wrong[!is_text], &count), FC_BAD_ARGUMENT);
        CHECK(count == 0);
    }
    OK(fc_close(&table));
}

/* --- Buffers ---------------------------------------------------------------------------------------------------------------------- */

/* Nothing goes into buffers of length 0, which may be null. */
static void empty_buffers(void) {
    fc_table table;
    uint64_t offsets[1] = {99};
    size_t count = 99;
    open_bakery(&table);
    OK(fc_numbers(&table, 1, 1, 1, NULL, 0, NULL, 0, NULL, 0));
    OK(fc_texts(&table, 0, 1, 1, offsets, 1, NULL, 0, NULL, 0, NULL, 0));
    CHECK(offsets[0] == 0);
    OK(fc_texts(&table, 0, 2, 3, (uint64_t[2]){9, 9}, 2, NULL, 0, (bool[1]){false}, 1, (bool[1]){false}, 1));
    CODE(fc_texts(&table, 0, 1, 2, (uint64_t[2]){9, 9}, 2, NULL, 0, (bool[1]){false}, 1, (bool[1]){false}, 1), FC_SHORT_BUFFER);
    OK(fc_lines(&table, 0, NULL, 0, &count));
    CHECK(count == 0);
    CODE(fc_row(&table, 0, NULL, 0), FC_BAD_ARGUMENT);
    CODE(fc_proposals(&table, 0, NULL, 0, &count), FC_BAD_ARGUMENT);
    CODE(fc_deliver(&table, 0, 0, NULL, 0), FC_STALE_JOB);
    CODE(fc_deliver_copy(&table, 1, 0, NULL, 0), FC_NOTHING);
    OK(fc_close(&table));
}

static void overlong_buffers(void) {
    fc_table table;
    arguments a = fresh_arguments();
    open_bakery(&table);
    CODE(fc_numbers(&table, 1, 0, 1, a.out.values, SIZE_MAX, a.out.valid, 1, a.out.alive, 1), FC_BAD_ARGUMENT);
    CODE(fc_numbers(&table, 1, 0, 1, a.out.values, 1, a.out.valid, SIZE_MAX, a.out.alive, 1), FC_BAD_ARGUMENT);
    CODE(fc_texts(&table, 0, 0, 1, a.out.offsets, 2, a.out.bytes, SIZE_MAX, a.out.valid, 1, a.out.alive, 1), FC_BAD_ARGUMENT);
    CODE(fc_lines(&table, 0, a.out.lines, SIZE_MAX, &a.out.count), FC_BAD_ARGUMENT);
    CODE(fc_row(&table, 0, a.out.row, SIZE_MAX), FC_BAD_ARGUMENT);
    CODE(fc_row(&table, 0, (fc_cell[40]){{0}}, 40), FC_BAD_ARGUMENT);
    CODE(fc_proposals(&table, 0, a.out.groups, SIZE_MAX, &a.out.count), FC_BAD_ARGUMENT);
    CODE(fc_deliver(&table, 0, 0, a.content, SIZE_MAX), FC_BAD_ARGUMENT);
    CODE(fc_deliver_copy(&table, 1, 0, a.content, SIZE_MAX), FC_BAD_ARGUMENT);
    CODE(fc_insert(&table, a.cells, SIZE_MAX, &a.out.number), FC_BAD_ARGUMENT);
    CHECK(is_unwritten(&a));
    OK(fc_close(&table));
}

/* Buffers that overlap are refused. Two numbers that go to one place are both written there. */
static void overlapping_buffers(void) {
    fc_table table;
    struct {
        int64_t values[3];
        uint64_t offsets[4];
        uint8_t bytes[16];
        bool valid[4], alive[3];
    } to;
    uint32_t number = 99, first = 99;
    uint64_t wide = 99;
    union {
        fc_cell key;
        fc_line line;
    } one = {.key = text_cell("rye")};
    open_bakery(&table);
    OK(fc_numbers(&table, 1, 0, 3, to.values, 3, to.valid, 3, to.alive, 3));
    CODE(fc_numbers(&table, 1, 0, 3, to.values, 3, to.valid, 3, to.valid, 3), FC_BAD_ARGUMENT);
    CODE(fc_numbers(&table, 1, 0, 3, to.values, 3, (bool *)to.values, 3, to.alive, 3), FC_BAD_ARGUMENT);
    CODE(fc_numbers(&table, 1, 0, 3, to.values, 3, to.valid, 3, (bool *)to.values + 23, 3), FC_BAD_ARGUMENT);
    OK(fc_texts(&table, 0, 0, 3, to.offsets, 4, to.bytes, 16, to.valid, 3, to.alive, 3));
    OK(fc_texts(&table, 0, 0, 2, to.offsets, 3, to.bytes, 16, to.valid, 2, to.valid + 2, 2));
    CODE(fc_texts(&table, 0, 0, 3, to.offsets, 4, (uint8_t *)to.offsets, 16, to.valid, 3, to.alive, 3), FC_BAD_ARGUMENT);
    CODE(fc_texts(&table, 0, 0, 3, to.offsets, 4, to.bytes, 16, (bool *)to.offsets + 29, 3, to.alive, 3), FC_BAD_ARGUMENT);
    CODE(fc_texts(&table, 0, 0, 3, to.offsets, 4, to.bytes, 16, to.valid, 3, (bool *)to.offsets, 3), FC_BAD_ARGUMENT);
    CODE(fc_texts(&table, 0, 0, 3, to.offsets, 4, to.bytes, 16, (bool *)to.bytes + 15, 3, to.alive, 3), FC_BAD_ARGUMENT);
    CODE(fc_texts(&table, 0, 0, 3, to.offsets, 4, to.bytes, 16, to.valid, 3, (bool *)to.bytes, 3), FC_BAD_ARGUMENT);
    CODE(fc_texts(&table, 0, 0, 3, to.offsets, 4, to.bytes, 16, to.valid, 3, to.valid + 2, 3), FC_BAD_ARGUMENT);
    OK(fc_pending(&table, 0, &number, &first));
    CHECK(number == 0 && first == 99);
    OK(fc_unwatch(&table, 0));
    OK(fc_watch(&table, &(fc_spec){.fold = FC_TOTALS, .value = 1, .has_key = true}, &number));
    OK(fc_pending(&table, 0, &first, &first));
    CHECK(first == 0);
    OK(fc_jobs(&table, &wide, &wide));
    CHECK(wide == 1);
    CODE(fc_ask_key(&table, 0, &one.key, &one.line), FC_BAD_ARGUMENT);
    CHECK(one.key.text.len == 3);
    one.line.count = 0;
    CODE(fc_ask_key(&table, 0, &(fc_cell){.text = {(const uint8_t *)&one.line.count, 3}, .kind = FC_TEXT}, &one.line), FC_BAD_ARGUMENT);
    OK(fc_close(&table));
}

/* What a call lends goes where anything may have been, and that stays if it is refused. */
static void lending(void) {
    fc_table table;
    fc_line lines[40], before[40];
    fc_cell row[2], row_before[2];
    fc_bytes bytes, bytes_before;
    uint64_t number;
    size_t count;
    bool valid;
    memset(before, 0xa5, sizeof before);
    memset(row_before, 0xa5, sizeof row_before);
    memset(&bytes_before, 0xa5, sizeof bytes_before);
    memcpy(lines, before, sizeof lines);
    memcpy(row, row_before, sizeof row);
    bytes = bytes_before;
    open_bakery(&table);
    CODE(fc_line_at(&table, 3, lines), FC_NOTHING);
    CODE(fc_ask_key(&table, 0, &(fc_cell){.number = 1, .kind = FC_INT}, lines), FC_NOTHING);
    CODE(fc_row(&table, 3, row, 2), FC_NO_ROW);
    CODE(fc_text(&table, 1, 0, &bytes, &valid), FC_WRONG_KIND);
    CODE(fc_outgoing(&table, 7, &number, &bytes), FC_STALE_JOB);
    CHECK(memcmp(lines, before, sizeof lines) == 0 && memcmp(row, row_before, sizeof row) == 0);
    CHECK(memcmp(&bytes, &bytes_before, sizeof bytes) == 0);
    OK(fc_lines(&table, 1, lines, 40, &count));
    CHECK(count == 2 && lines[0].key_text.len == 5 && lines[1].key_text.len == 3);
    CHECK(memcmp(&lines[2], &before[2], 38 * sizeof *lines) == 0);
    OK(fc_row(&table, 1, row, 2));
    CHECK(row[0].text.len == 3 && row[1].number == 3 && row[1].text.len == 0);
    OK(fc_text(&table, 0, 0, &bytes, &valid));
    CHECK(valid && bytes.len == 5);
    OK(fc_outgoing(&table, 0, &number, &bytes));
    CHECK(number == 0 && bytes.len > 0);
    OK(fc_close(&table));
}

/* More lines than fc_lines writes in one part: of any length, from any line on. */
static void many_lines(void) {
    fc_table table = {NULL};
    const fc_spec by_number = {.fold = FC_TOTALS, .value = 1, .key = 1, .has_key = true};
    fc_line lines[60];
    uint32_t aggregate;
    size_t all, count;
    OK(fc_open(&table, KINDS, 2, &LIMITS, 1000));
    for (int i = 0; i < 48; i++) OK(insert(&table, "x", i));
    OK(fc_watch(&table, &by_number, &aggregate));
    OK(fc_recount(&table, aggregate, &all));
    CHECK(all == 48);
    for (size_t from = 0; from <= 49; from++) {
        for (size_t room = 0; room <= 60; room++) {
            const size_t due = from > 48 ? 0 : room < 48 - from ? room : 48 - from;
            bool are_right = true;
            memset(lines, 0xa5, sizeof lines);
            OK(fc_lines(&table, from, lines, room, &count));
            for (size_t i = 0; i < due; i++) are_right &= lines[i].key_number == (int64_t)(from + i) && lines[i].count == 1;
            for (size_t i = due; i < 60; i++) are_right &= lines[i].key_kind == 0xa5a5a5a5 && lines[i].key_text.len == 0xa5a5a5a5a5a5a5a5;
            CHECK(count == due && are_right);
        }
    }
    OK(fc_close(&table));
}

int main(void) {
    each_pointer();
    each_pointer_of_a_closed_handle();
    opening();
    texts_of_cells();
    tests_of_specifications();
    parts_of_columns();
    empty_buffers();
    overlong_buffers();
    overlapping_buffers();
    lending();
    many_lines();
    CHECK(blocks == 0);
    return tell();
}
