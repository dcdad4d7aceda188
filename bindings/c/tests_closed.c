/* Opening and closing, and each call with a closed handle. */
#include "tests.h"

static void opening(void) {
    fc_table table = {NULL};
    fc_limits none = LIMITS;
    const uint32_t wrong[1] = {7};
    uint32_t places;
    none.group = 0;
    CODE(fc_places(&table, &places), FC_CLOSED);
    CODE(fc_close(&table), FC_CLOSED);
    CODE(fc_open(&table, KINDS, 0, &LIMITS, 10), FC_BAD_SCHEMA);
    CODE(fc_open(&table, KINDS, 2, &none, 10), FC_BAD_SCHEMA);
    CODE(fc_open(&table, wrong, 1, &LIMITS, 10), FC_BAD_ARGUMENT);
    OK(fc_open(&table, KINDS, 2, &LIMITS, 10));
    CODE(fc_open(&table, KINDS, 2, &LIMITS, 10), FC_ALREADY_OPEN);
    OK(fc_close(&table));
    CODE(fc_close(&table), FC_CLOSED);
    CHECK(blocks == 0);
}

static void closed_edits(void) {
    fc_table table = {NULL};
    const fc_cell cell = {0, fc_no_bytes, FC_MISSING};
    const fc_column column = {.kind = FC_INT};
    uint32_t n = 99, first = 99;
    size_t count = 99;
    fc_sum sum;
    fc_line line;
    CODE(fc_insert(&table, &cell, 1, &n), FC_CLOSED);
    CODE(fc_insert_columns(&table, &column, 1, 0, &count), FC_CLOSED);
    CODE(fc_set(&table, 0, 0, &cell), FC_CLOSED);
    CODE(fc_set_column(&table, 0, &n, 0, &column, &count), FC_CLOSED);
    CODE(fc_remove(&table, 0), FC_CLOSED);
    CODE(fc_watch(&table, &TOTAL, &n), FC_CLOSED);
    CODE(fc_unwatch(&table, 0), FC_CLOSED);
    CODE(fc_scan(&table, 0, 0), FC_CLOSED);
    CODE(fc_pending(&table, 0, &n, &first), FC_CLOSED);
    CODE(fc_ask(&table, 0, &count), FC_CLOSED);
    CODE(fc_recount(&table, 0, &count), FC_CLOSED);
    CODE(fc_line_at(&table, 0, &line), FC_CLOSED);
    CODE(fc_lines(&table, 0, &line, 1, &count), FC_CLOSED);
    CODE(fc_find(&table, &cell, &count), FC_CLOSED);
    CODE(fc_ask_key(&table, 0, &cell, &line), FC_CLOSED);
    CODE(fc_plain(&table, 0, &sum), FC_CLOSED);
    CODE(fc_spec_of(&table, 0, &(fc_aggregate){0, 0, 0, 0, false}), FC_CLOSED);
    CHECK(n == 99 && first == 99 && count == 99);
}

static void closed_readers(void) {
    fc_table table = {NULL};
    fc_cell cell = {0, fc_no_bytes, FC_MISSING};
    fc_bytes lent = fc_no_bytes;
    fc_limits limits = LIMITS;
    fc_details why = {99, 0, 0, 0};
    fc_object object;
    fc_space space;
    int64_t value = 99;
    uint64_t offsets[2] = {99, 99}, waiting = 99;
    uint8_t byte = 99;
    bool valid = false, alive = false;
    uint32_t n = 99;
    size_t size = 99;
    CODE(fc_row(&table, 0, &cell, 1), FC_CLOSED);
    CODE(fc_is_alive(&table, 0, &alive), FC_CLOSED);
    CODE(fc_numbers(&table, 0, 0, 1, &value, 1, &valid, 1, &alive, 1), FC_CLOSED);
    CODE(fc_text(&table, 0, 0, &lent, &valid), FC_CLOSED);
    CODE(fc_texts_size(&table, 0, 0, 1, &size), FC_CLOSED);
    CODE(fc_texts(&table, 0, 0, 1, offsets, 2, &byte, 1, &valid, 1, &alive, 1), FC_CLOSED);
    CODE(fc_places(&table, &n), FC_CLOSED);
    CODE(fc_columns(&table, &n), FC_CLOSED);
    CODE(fc_kind_of(&table, 0, &n), FC_CLOSED);
    CODE(fc_limits_of(&table, &limits), FC_CLOSED);
    CODE(fc_object_of(&table, 0, 0, &object), FC_CLOSED);
    CODE(fc_space_of(&table, FC_INT, &space), FC_CLOSED);
    CODE(fc_faults(&table, &offsets[0]), FC_CLOSED);
    CODE(fc_jobs(&table, &offsets[0], &waiting), FC_CLOSED);
    CODE(fc_last_refusal(&table, &why), FC_CLOSED);
    CHECK(value == 99 && offsets[0] == 99 && waiting == 99 && byte == 99 && n == 99 && size == 99 && !valid && !alive);
    CHECK(memcmp(&limits, &LIMITS, sizeof limits) == 0 && why.code == 99);
}

static void closed_jobs(void) {
    fc_table table = {NULL};
    fc_bytes bytes = fc_no_bytes;
    fc_job about;
    uint64_t n = 99;
    uint32_t groups[2] = {99, 99};
    size_t count = 99;
    CODE(fc_pin(&table, 0, 0), FC_CLOSED);
    CODE(fc_unpin(&table, 0, 0), FC_CLOSED);
    CODE(fc_compact(&table, FC_INT, 0), FC_CLOSED);
    CODE(fc_saw(&table, 0, 0), FC_CLOSED);
    CODE(fc_proposals(&table, 0, groups, 2, &count), FC_CLOSED);
    CODE(fc_begin_evict(&table, 0, 0, &n), FC_CLOSED);
    CODE(fc_begin_coldest(&table, &n), FC_CLOSED);
    CODE(fc_begin_fetch(&table, 0, 0, &n), FC_CLOSED);
    CODE(fc_begin_offload(&table, 0, 0, &n), FC_CLOSED);
    CODE(fc_job_of(&table, 0, &about), FC_CLOSED);
    CODE(fc_wanted(&table, 0, 0, &n), FC_CLOSED);
    CODE(fc_deliver(&table, 0, 0, bytes.at, 0), FC_CLOSED);
    CODE(fc_carry(&table, 0), FC_CLOSED);
    CODE(fc_outgoing(&table, 0, &n, &bytes), FC_CLOSED);
    CODE(fc_commit(&table, 0), FC_CLOSED);
    CODE(fc_install(&table, 0), FC_CLOSED);
    CODE(fc_merge(&table, 0), FC_CLOSED);
    CODE(fc_give_up(&table, 0), FC_CLOSED);
    CODE(fc_fault(&table, 0), FC_CLOSED);
    CODE(fc_deliver_copy(&table, 0, 0, bytes.at, 0), FC_CLOSED);
    CODE(fc_migrate(&table, 10), FC_CLOSED);
    CODE(fc_close(&table), FC_CLOSED);
    CHECK(n == 99 && groups[0] == 99 && count == 99 && bytes.len == 0);
}

void test_closed(void) {
    opening();
    closed_edits();
    closed_readers();
    closed_jobs();
}
