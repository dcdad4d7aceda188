/* Each allocation of a day's calls refused in turn. */
#include "tests.h"

/* Calls again once if memory ran out: a refused call left everything as it was. */
#define AGAIN(call) (code = (call), code == FC_NO_MEMORY ? (call) : code)

/* Sets the names of two places, from the first on that is not set yet. */
static uint32_t set_names(fc_table *table, size_t *done) {
    static const uint32_t places[2] = {0, 1};
    static const uint64_t offsets[3] = {0, 3, 6};
    const fc_column names = {NULL, 0, offsets + *done, 3 - *done, (const uint8_t *)"oatrye", 6, NULL, 0, FC_TEXT};
    size_t set;
    const uint32_t code = fc_set_column(table, 0, places + *done, 2 - *done, &names, &set);
    *done += set;
    return code;
}

static void a_day_without_memory(unsigned long which) {
    fc_table table = {NULL};
    uint32_t by_name, code;
    uint64_t job, number;
    size_t lines = 0, set = 0;
    fc_line line;
    const fc_cell rye = text_cell("rye");
    allocations = 0;
    refused_one = which;
    OK(AGAIN(fc_open(&table, KINDS, 2, &LIMITS, 10)));
    OK(AGAIN(insert(&table, "bread", 5)));
    OK(AGAIN(fc_watch(&table, &BY_NAME, &by_name)));
    OK(AGAIN(fc_scan(&table, by_name, 0)));
    OK(AGAIN(insert(&table, "rye", 3)));
    OK(AGAIN(fc_begin_evict(&table, 0, 0, &job)));
    OK(AGAIN(fc_carry(&table, job)));
    CHECK(keep(&table, job, &number));
    OK(AGAIN(fc_commit(&table, job)));
    OK(AGAIN(fc_begin_fetch(&table, 0, 0, &job)));
    OK(fc_wanted(&table, job, 0, &number));
    OK(AGAIN(fc_deliver(&table, job, number, shelf[number].bytes, shelf[number].len)));
    OK(AGAIN(fc_carry(&table, job)));
    OK(AGAIN(fc_install(&table, job)));
    OK(AGAIN(set_names(&table, &set)));
    OK(AGAIN(fc_remove(&table, 0)));
    OK(AGAIN(fc_recount(&table, by_name, &lines)));
    OK(AGAIN(fc_ask(&table, by_name, &lines)));
    CHECK(is_found(&table, text_cell("rye"), 0));
    OK(AGAIN(fc_ask_key(&table, by_name, &rye, &line)));
    CHECK(line.key_text.at == rye.text.at && line.count == 1 && line.sum_low == 3);
    OK(fc_line_at(&table, 0, &line));
    CHECK(lines == 1 && line.key_text.len == 3 && line.count == 1 && line.sum_low == 3);
    OK(AGAIN(fc_migrate(&table, 10)));
    OK(fc_close(&table));
    refused_one = 0;
    CHECK(blocks == 0);
}

void test_memory(void) {
    a_day_without_memory(0);
    for (unsigned long which = 1, all = allocations; which <= all; which++) a_day_without_memory(which);
}
