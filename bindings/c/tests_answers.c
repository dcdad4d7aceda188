/* Aggregates: their registration, and their answers as a whole, by line and by key. */
#include "tests.h"

/* Totals by name, asked before and after the row group is scanned. */
static void totals_by_name(fc_table *table) {
    uint32_t by_name, groups = 99, first = 99;
    size_t lines;
    fc_line line;
    fc_details why;
    OK(fc_watch(table, &BY_NAME, &by_name));
    OK(fc_pending(table, by_name, &groups, &first));
    CHECK(groups == 1 && first == 0);
    CODE(fc_ask(table, by_name, &lines), FC_BUILDING);
    OK(fc_last_refusal(table, &why));
    CHECK(why.code == FC_BUILDING && why.pending == 1);
    OK(fc_recount(table, by_name, &lines));
    CHECK(lines == 2);
    OK(fc_scan(table, by_name, 0));
    CODE(fc_scan(table, by_name, 0), FC_STALE_JOB);
    CODE(fc_scan(table, by_name, 1), FC_OUT_OF_RANGE);
    OK(fc_pending(table, by_name, &groups, &first));
    CHECK(groups == 0);
    OK(fc_ask(table, by_name, &lines));
    CHECK(lines == 2);
    OK(fc_line_at(table, 0, &line));
    CHECK(line.key_kind == FC_TEXT && line.key_text.len == 5 && line.count == 2 && line.sum_low == 7 && line.sum_high == 0);
    OK(fc_line_at(table, 1, &line));
    CHECK(line.key_text.len == 3 && line.count == 1 && line.sum_low == 3 && line.fold == FC_TOTALS);
    CODE(fc_line_at(table, 2, &line), FC_NOTHING);
    CODE(fc_plain(table, by_name, &(fc_sum){0, 0, 0}), FC_NOTHING);
}

static void totals_of_some_rows(fc_table *table) {
    const fc_test tests[2] = {{3, {(const uint8_t *)"", 0}, 1, FC_GE}, {0, {(const uint8_t *)"b", 1}, 0, FC_TEXT_BEGINS}};
    const fc_spec filtered = {.tests = tests, .tests_len = 2, .fold = FC_TOTALS, .value = 1};
    fc_spec wrong = TOTAL;
    fc_aggregate about;
    uint32_t total;
    OK(fc_watch(table, &filtered, &total));
    OK(fc_scan(table, total, 0));
    CHECK(is_total(table, total, 1, 5));
    OK(fc_spec_of(table, total, &about));
    CHECK(about.fold == FC_TOTALS && about.value == 1 && !about.has_key && about.tests == 2);
    CODE(fc_spec_of(table, 9, &about), FC_NO_AGGREGATE);
    wrong.value = 0;
    CODE(fc_watch(table, &wrong, &total), FC_WRONG_KIND);
    wrong.fold = 9;
    CODE(fc_watch(table, &wrong, &total), FC_BAD_ARGUMENT);
}

static void aggregates(void) {
    fc_table table;
    uint32_t range, groups = 99, first = 99;
    size_t lines;
    fc_line line;
    open_bakery(&table);
    totals_by_name(&table);
    OK(fc_watch(&table, &RANGE, &range));
    OK(fc_scan(&table, range, 0));
    OK(fc_ask(&table, range, &lines));
    OK(fc_line_at(&table, 0, &line));
    CHECK(line.key_kind == FC_MISSING && line.fold == FC_EXTREMA && line.min == 2 && line.max == 5);
    totals_of_some_rows(&table);
    OK(fc_unwatch(&table, range));
    CODE(fc_unwatch(&table, range), FC_NO_AGGREGATE);
    CODE(fc_ask(&table, range, &lines), FC_NO_AGGREGATE);
    CODE(fc_recount(&table, range, &lines), FC_NO_AGGREGATE);
    CODE(fc_pending(&table, range, &groups, &first), FC_NO_AGGREGATE);
    OK(fc_close(&table));
}

static void finding(void) {
    fc_table table = {NULL};
    uint32_t by_name, by_number, total;
    size_t lines, index = 99;
    const fc_cell missing = {0, fc_no_bytes, FC_MISSING}, bread = text_cell("bread"), bad = {0, {(const uint8_t *)"\xff", 1}, FC_TEXT};
    fc_spec spec = {.fold = FC_EXTREMA, .value = 1, .key = 1, .has_key = true};
    CODE(fc_find(&table, &bread, &index), FC_CLOSED);
    open_bakery(&table);
    CODE(fc_find(&table, &bread, &index), FC_NOTHING);
    OK(fc_watch(&table, &BY_NAME, &by_name));
    OK(fc_scan(&table, by_name, 0));
    OK(fc_ask(&table, by_name, &lines));
    CHECK(is_found(&table, bread, 0) && is_found(&table, text_cell("rye"), 1));
    CODE(fc_find(&table, &(fc_cell){0, text("brea"), FC_TEXT}, &index), FC_NOTHING);
    CODE(fc_find(&table, &(fc_cell){0, text("s"), FC_TEXT}, &index), FC_NOTHING);
    CODE(fc_find(&table, &(fc_cell){3, fc_no_bytes, FC_INT}, &index), FC_NOTHING);
    CODE(fc_find(&table, &missing, &index), FC_NOTHING);
    CODE(fc_find(&table, &bad, &index), FC_NO_UTF8);
    CODE(fc_find(&table, &(fc_cell){0, fc_no_bytes, 9}, &index), FC_BAD_ARGUMENT);
    CHECK(index == 99);
    OK(fc_watch(&table, &spec, &by_number));
    OK(fc_recount(&table, by_number, &lines));
    CHECK(lines == 3 && is_found(&table, int_cell(2), 0) && is_found(&table, int_cell(3), 1) && is_found(&table, int_cell(5), 2));
    CODE(fc_find(&table, &(fc_cell){4, fc_no_bytes, FC_INT}, &index), FC_NOTHING);
    OK(fc_watch(&table, &TOTAL, &total));
    OK(fc_recount(&table, total, &lines));
    CHECK(lines == 1 && is_found(&table, missing, 0));
    OK(fc_close(&table));
}

static bool is_key_total(fc_table *table, uint32_t aggregate, fc_cell key, uint64_t count, int64_t sum) {
    fc_line line;
    return fc_ask_key(table, aggregate, &key, &line) == FC_OK && line.fold == FC_TOTALS && line.key_kind == key.kind &&
           line.key_number == key.number && line.key_text.len == key.text.len &&
           (key.kind != FC_TEXT || line.key_text.at == key.text.at) && line.count == count && (int64_t)line.sum_low == sum &&
           line.sum_high == (sum < 0 ? -1 : 0);
}

static bool is_key_range(fc_table *table, uint32_t aggregate, fc_cell key, int64_t min, int64_t max) {
    fc_line line;
    return fc_ask_key(table, aggregate, &key, &line) == FC_OK && line.fold == FC_EXTREMA && line.key_kind == key.kind && line.min == min &&
           line.max == max;
}

/* One key of other aggregates: extrema by name, totals by number, and totals without a key. */
static void one_key_of_others(fc_table *table) {
    uint32_t by_number, total, ends;
    fc_line line;
    const fc_cell missing = {0, fc_no_bytes, FC_MISSING}, bread = text_cell("bread");
    fc_spec spec = {.fold = FC_EXTREMA, .value = 1, .key = 0, .has_key = true};
    OK(fc_watch(table, &spec, &ends));
    OK(fc_scan(table, ends, 0));
    CHECK(is_key_range(table, ends, bread, 2, 5) && is_key_range(table, ends, text_cell("rye"), 3, 3));
    spec.fold = FC_TOTALS;
    spec.key = 1;
    OK(fc_watch(table, &spec, &by_number));
    OK(fc_scan(table, by_number, 0));
    CHECK(is_key_total(table, by_number, int_cell(2), 1, 2) && is_key_total(table, by_number, int_cell(5), 1, 5));
    CODE(fc_ask_key(table, by_number, &(fc_cell){4, fc_no_bytes, FC_INT}, &line), FC_NOTHING);
    CODE(fc_ask_key(table, by_number, &(fc_cell){-1, fc_no_bytes, FC_INT}, &line), FC_NOTHING);
    OK(fc_watch(table, &TOTAL, &total));
    OK(fc_scan(table, total, 0));
    CHECK(is_key_total(table, total, missing, 3, 10));
    CODE(fc_ask_key(table, total, &(fc_cell){0, fc_no_bytes, FC_INT}, &line), FC_NOTHING);
}

static void one_key(void) {
    fc_table table = {NULL};
    uint32_t by_name;
    size_t lines;
    fc_line line = {.key_text = fc_no_bytes, .fold = 9}, kept = {.key_text = fc_no_bytes};
    fc_details why;
    const fc_cell missing = {0, fc_no_bytes, FC_MISSING}, bread = text_cell("bread"), bad = {0, {(const uint8_t *)"\xff", 1}, FC_TEXT};
    CODE(fc_ask_key(&table, 0, &bread, &line), FC_CLOSED);
    open_bakery(&table);
    CODE(fc_ask_key(&table, 0, &bread, &line), FC_NO_AGGREGATE);
    OK(fc_watch(&table, &BY_NAME, &by_name));
    CODE(fc_ask_key(&table, by_name, &bread, &line), FC_BUILDING);
    OK(fc_last_refusal(&table, &why));
    CHECK(why.code == FC_BUILDING && why.pending == 1);
    CODE(fc_ask_key(&table, by_name, &bad, &line), FC_NO_UTF8);
    CODE(fc_ask_key(&table, by_name, &(fc_cell){0, fc_no_bytes, 9}, &line), FC_BAD_ARGUMENT);
    OK(fc_scan(&table, by_name, 0));
    OK(fc_ask(&table, by_name, &lines));
    CHECK(is_key_total(&table, by_name, bread, 2, 7) && is_key_total(&table, by_name, text_cell("rye"), 1, 3));
    CODE(fc_ask_key(&table, by_name, &(fc_cell){0, text("brea"), FC_TEXT}, &line), FC_NOTHING);
    CODE(fc_ask_key(&table, by_name, &(fc_cell){2, fc_no_bytes, FC_INT}, &line), FC_NOTHING);
    CODE(fc_ask_key(&table, by_name, &missing, &line), FC_NOTHING);
    CHECK(line.fold == 9);
    refused_one = allocations + 1;
    CODE(fc_ask_key(&table, by_name, &bread, &line), FC_NO_MEMORY);
    refused_one = allocations + 1;
    CODE(fc_ask_key(&table, 9, &bread, &line), FC_NO_AGGREGATE);
    refused_one = 0;
    one_key_of_others(&table);
    OK(fc_line_at(&table, 0, &kept));
    CHECK(kept.count == 2 && kept.key_text.len == 5);
    OK(fc_close(&table));
}

static bool is_line(const fc_line *line, const char *key, uint64_t count, uint64_t sum) {
    return line->fold == FC_TOTALS && line->key_kind == FC_TEXT && line->key_text.len == strlen(key) &&
           memcmp(line->key_text.at, key, line->key_text.len) == 0 && line->count == count && line->sum_low == sum && line->sum_high == 0;
}

static bool is_blank(const fc_line *line) { return line->key_text.at == fc_no_bytes.at && line->fold == 9; }

/* Many lines at once: from the first and from a later one on, into less room and into more than there are lines. */
static void many_lines(void) {
    fc_table table = {NULL};
    const fc_line blank = {.key_text = fc_no_bytes, .fold = 9};
    fc_line some[4] = {blank, blank, blank, blank};
    uint32_t by_name, ends;
    size_t lines, count = 99;
    CODE(fc_lines(&table, 0, some, 4, &count), FC_CLOSED);
    open_bakery(&table);
    CODE(fc_lines(&table, 0, some, 4, &count), FC_NOTHING);
    CHECK(count == 99 && is_blank(&some[0]));
    OK(insert(&table, "oat", 4));
    OK(fc_watch(&table, &BY_NAME, &by_name));
    OK(fc_scan(&table, by_name, 0));
    OK(fc_ask(&table, by_name, &lines));
    OK(fc_lines(&table, 0, some, 4, &count));
    CHECK(lines == 3 && count == 3 && is_line(&some[0], "bread", 2, 7) && is_line(&some[1], "oat", 1, 4));
    CHECK(is_line(&some[2], "rye", 1, 3) && is_blank(&some[3]));
    for (int i = 0; i < 4; i++) some[i] = blank;
    OK(fc_lines(&table, 1, some, 1, &count));
    CHECK(count == 1 && is_line(&some[0], "oat", 1, 4) && is_blank(&some[1]));
    some[0] = blank;
    OK(fc_lines(&table, 2, some, 4, &count));
    CHECK(count == 1 && is_line(&some[0], "rye", 1, 3) && is_blank(&some[1]));
    some[0] = blank;
    OK(fc_lines(&table, 3, some, 4, &count));
    CHECK(count == 0 && is_blank(&some[0]));
    OK(fc_lines(&table, SIZE_MAX, some, 4, &count));
    CHECK(count == 0 && is_blank(&some[0]));
    OK(fc_lines(&table, 0, some, 0, &count));
    CHECK(count == 0 && is_blank(&some[0]));
    OK(fc_watch(&table, &RANGE, &ends));
    OK(fc_scan(&table, ends, 0));
    OK(fc_recount(&table, ends, &lines));
    OK(fc_lines(&table, 0, some, 4, &count));
    CHECK(count == 1 && some[0].fold == FC_EXTREMA && some[0].key_kind == FC_MISSING && some[0].min == 2 && some[0].max == 5);
    CHECK(is_blank(&some[1]));
    OK(fc_close(&table));
}

void test_answers(void) {
    aggregates();
    finding();
    one_key();
    many_lines();
}
