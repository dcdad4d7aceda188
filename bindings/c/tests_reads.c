/* Reads: copies of numbers and texts, and what is lent. */
#include "tests.h"

/* Texts with a missing one and a short buffer among them: what is written, and what is recorded. */
static void copied_texts(fc_table *table) {
    uint64_t offsets[4] = {0};
    uint8_t bytes[16];
    bool valid[3], alive[3];
    size_t size = 99, count = 99;
    uint32_t next[2] = {77, 77};
    const fc_cell missing = {0, fc_no_bytes, FC_MISSING};
    fc_details why;
    OK(fc_set(table, 0, 1, &missing));
    memset(bytes, '.', sizeof bytes);
    OK(fc_texts(table, 0, 0, 3, offsets, 4, bytes, 16, valid, 3, alive, 3));
    CHECK(offsets[0] == 0 && offsets[1] == 5 && offsets[2] == 5 && offsets[3] == 10);
    CHECK(memcmp(bytes, "breadbread......", 16) == 0);
    CHECK(valid[0] && !valid[1] && valid[2] && alive[0] && alive[1] && !alive[2]);
    OK(fc_texts_size(table, 0, 1, 2, &size));
    CHECK(size == 0);
    CODE(fc_texts_size(table, 0, 1, 4, &size), FC_OUT_OF_RANGE);
    CODE(fc_texts_size(table, 0, 2, 1, &size), FC_OUT_OF_RANGE);
    CHECK(size == 0);
    CODE(fc_texts(table, 0, 0, 3, offsets, 4, bytes, 9, valid, 3, alive, 3), FC_SHORT_BUFFER);
    OK(fc_last_refusal(table, &why));
    CHECK(why.code == FC_OUT_OF_RANGE);
    OK(fc_texts(table, 0, 1, 1, offsets, 1, bytes, 0, valid, 0, alive, 0));
    CHECK(offsets[0] == 0);
    CODE(fc_proposals(table, 0, next, 1, &count), FC_BAD_ARGUMENT);
    CODE(fc_proposals(table, 9, next, 2, &count), FC_NO_COLUMN);
    CHECK(count == 99 && next[0] == 77);
    OK(fc_proposals(table, 0, next, 2, &count));
    CHECK(count == 0);
}

static void reading(void) {
    fc_table table;
    int64_t values[3] = {0};
    uint64_t offsets[4] = {0};
    uint8_t bytes[16];
    bool valid[3], alive[3];
    size_t size = 99;
    fc_bytes lent = fc_no_bytes;
    const fc_cell missing = {0, fc_no_bytes, FC_MISSING};
    open_bakery(&table);
    OK(fc_set(&table, 1, 1, &missing));
    OK(fc_remove(&table, 2));
    OK(fc_numbers(&table, 1, 0, 3, values, 3, valid, 3, alive, 3));
    CHECK(values[0] == 5 && values[1] == 0 && values[2] == 2 && valid[0] && !valid[1] && valid[2] && alive[0] && alive[1] && !alive[2]);
    CODE(fc_numbers(&table, 1, 0, 3, values, 2, valid, 3, alive, 3), FC_BAD_ARGUMENT);
    CODE(fc_numbers(&table, 0, 0, 3, values, 3, valid, 3, alive, 3), FC_WRONG_KIND);
    CODE(fc_numbers(&table, 1, 1, 4, values, 3, valid, 3, alive, 3), FC_OUT_OF_RANGE);
    OK(fc_text(&table, 0, 1, &lent, valid));
    CHECK(valid[0] && lent.len == 3 && memcmp(lent.at, "rye", 3) == 0);
    CODE(fc_text(&table, 0, 3, &lent, valid), FC_NO_ROW);
    OK(fc_texts_size(&table, 0, 0, 3, &size));
    CHECK(size == 13);
    CODE(fc_texts_size(&table, 1, 0, 3, &size), FC_WRONG_KIND);
    OK(fc_texts(&table, 0, 0, 3, offsets, 4, bytes, 16, valid, 3, alive, 3));
    CHECK(offsets[0] == 0 && offsets[1] == 5 && offsets[2] == 8 && offsets[3] == 13 && memcmp(bytes, "breadryebread", 13) == 0 && !alive[2]);
    CODE(fc_texts(&table, 0, 0, 3, offsets, 4, bytes, 12, valid, 3, alive, 3), FC_SHORT_BUFFER);
    CODE(fc_texts(&table, 0, 0, 3, offsets, 3, bytes, 16, valid, 3, alive, 3), FC_BAD_ARGUMENT);
    CODE(fc_texts(&table, 9, 2, 1, offsets, 2, bytes, 16, valid, 0, alive, 0), FC_BAD_ARGUMENT);
    CODE(fc_texts(&table, 9, 2, 1, offsets, 1, bytes, 16, valid, 0, alive, 0), FC_NO_COLUMN);
    copied_texts(&table);
    evict(&table, 0, 0);
    CODE(fc_text(&table, 0, 1, &lent, valid), FC_ABSENT);
    CODE(fc_row(&table, 0, (fc_cell[2]){missing, missing}, 2), FC_ABSENT);
    OK(fc_close(&table));
}

/* What is lent of a table with an answer and a carried eviction, and refused between. */
static void lent_once(fc_table *table, uint64_t job) {
    fc_line line;
    fc_cell row[2];
    fc_bytes name, out;
    fc_details why;
    uint64_t number = 999;
    size_t lines;
    bool valid;
    OK(fc_line_at(table, 0, &line));
    CHECK(line.key_text.len == 5 && line.count == 2 && line.sum_low == 7);
    OK(fc_row(table, 1, row, 2));
    CHECK(row[0].text.len == 3 && row[1].number == 3);
    OK(fc_text(table, 0, 2, &name, &valid));
    CHECK(valid && name.len == 5);
    OK(fc_outgoing(table, job, &number, &out));
    CHECK(number == 0 && out.len > 0);
    CODE(fc_line_at(table, 2, &line), FC_NOTHING);
    OK(fc_lines(table, 0, &line, 1, &lines));
    CHECK(lines == 1 && line.key_text.len == 5 && line.count == 2);
    CODE(fc_row(table, 3, row, 2), FC_NO_ROW);
    CODE(fc_text(table, 1, 0, &name, &valid), FC_WRONG_KIND);
    CODE(fc_outgoing(table, 77, &number, &out), FC_STALE_JOB);
    OK(fc_last_refusal(table, &why));
    CHECK(why.code == FC_STALE_JOB);
}

/* What is lent, twice over, and refused between: nothing but the last refusal changes. */
static void lending(void) {
    fc_table table;
    fc_object before, after;
    uint64_t job, begun, waiting;
    uint32_t by_name, places;
    size_t lines;
    open_bakery(&table);
    OK(fc_watch(&table, &BY_NAME, &by_name));
    OK(fc_scan(&table, by_name, 0));
    OK(fc_ask(&table, by_name, &lines));
    OK(fc_begin_evict(&table, 1, 0, &job));
    OK(fc_carry(&table, job));
    memset(&before, 0, sizeof before);
    memset(&after, 0, sizeof after);
    OK(fc_object_of(&table, 1, 0, &before));
    for (int i = 0; i < 2; i++) lent_once(&table, job);
    OK(fc_object_of(&table, 1, 0, &after));
    CHECK(memcmp(&before, &after, sizeof before) == 0 && before.version == after.version);
    OK(fc_jobs(&table, &begun, &waiting));
    OK(fc_places(&table, &places));
    CHECK(begun == 1 && waiting == 1 && places == 3 && is_found(&table, text_cell("rye"), 1));
    OK(fc_commit(&table, job));
    OK(fc_close(&table));
}

void test_reads(void) {
    reading();
    lending();
}
