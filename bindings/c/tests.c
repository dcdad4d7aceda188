/* Each call of the library once as it should go and once refused; contents that are not what was put; and each allocation refused in
 * turn. Each of tests_*.c has one topic; here is what they share. Prints 'N passed, M failed' in the end. */
#include "tests.h"

const uint32_t KINDS[2] = {FC_TEXT, FC_INT};
const fc_limits LIMITS = {.edits = 1000, .group = 4, .places = 16, .int_segments = 4, .int_size = 16, .text_segments = 4,
                          .text_size = 256};
const fc_spec BY_NAME = {.fold = FC_TOTALS, .value = 1, .key = 0, .has_key = true};
const fc_spec TOTAL = {.fold = FC_TOTALS, .value = 1};
const fc_spec RANGE = {.fold = FC_EXTREMA, .value = 1};

fc_bytes text(const char *of) { return (fc_bytes){(const uint8_t *)of, strlen(of)}; }

fc_cell int_cell(int64_t of) { return (fc_cell){of, fc_no_bytes, FC_INT}; }

fc_cell text_cell(const char *of) { return (fc_cell){0, text(of), FC_TEXT}; }

uint32_t insert(fc_table *table, const char *of, int64_t quantity) {
    fc_cell row[2] = {text_cell(of), int_cell(quantity)};
    uint32_t place = 99;
    return fc_insert(table, row, 2, &place);
}

void open_bakery(fc_table *table) {
    memset(table, 0, sizeof *table);
    OK(fc_open(table, KINDS, 2, &LIMITS, 1000));
    OK(insert(table, "bread", 5));
    OK(insert(table, "rye", 3));
    OK(insert(table, "bread", 2));
}

content shelf[1000];

bool keep(fc_table *table, uint64_t job, uint64_t *number) {
    fc_bytes bytes;
    if (fc_outgoing(table, job, number, &bytes) != FC_OK) return false;
    memcpy(shelf[*number].bytes, bytes.at, bytes.len);
    shelf[*number].len = bytes.len;
    return true;
}

uint64_t evict(fc_table *table, uint32_t column, uint32_t group) {
    uint64_t job, number = 999;
    OK(fc_begin_evict(table, column, group, &job));
    OK(fc_carry(table, job));
    keep(table, job, &number);
    OK(fc_commit(table, job));
    return number;
}

uint32_t fetch(fc_table *table, uint32_t column, uint32_t group) {
    uint64_t job, number;
    uint32_t code = fc_begin_fetch(table, column, group, &job);
    if (code) return code;
    OK(fc_wanted(table, job, 0, &number));
    OK(fc_deliver(table, job, number, shelf[number].bytes, shelf[number].len));
    OK(fc_carry(table, job));
    return fc_install(table, job);
}

bool is_total(fc_table *table, uint32_t aggregate, uint64_t count, int64_t sum) {
    fc_sum found;
    return fc_plain(table, aggregate, &found) == FC_OK && found.count == count && (int64_t)found.sum_low == sum &&
           found.sum_high == (sum < 0 ? -1 : 0);
}

bool is_found(fc_table *table, fc_cell key, size_t at) {
    size_t index = 99;
    return fc_find(table, &key, &index) == FC_OK && index == at;
}

int main(void) {
    test_edits();
    test_answers();
    test_reads();
    test_moves();
    test_closed();
    test_deliveries();
    test_memory();
    return tell();
}
