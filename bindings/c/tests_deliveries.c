/* Deliveries: contents that are not what was put, and how long what was delivered is kept. */
#include "tests.h"

/* Delivers other bytes for a begun fetch: refused with a fault, which is counted, and the job waits. */
static void is_refused(fc_table *table, uint64_t job, uint64_t number, const uint8_t *bytes, size_t len) {
    uint64_t before, after;
    fc_faults(table, &before);
    if (fc_deliver(table, job, number, bytes, len) != FC_FAR_FAULT) CHECK(!"other bytes are taken");
    fc_faults(table, &after);
    if (after != before + 1) CHECK(!"a fault is counted");
}

static void lies(void) {
    fc_table table;
    uint64_t job, number, older, other;
    uint32_t by_name;
    size_t lines;
    const fc_cell eight = int_cell(8);
    uint8_t bytes[256];
    open_bakery(&table);
    older = evict(&table, 1, 0);
    other = evict(&table, 0, 0);
    OK(fetch(&table, 1, 0));
    OK(fetch(&table, 0, 0));
    OK(fc_set(&table, 1, 0, &eight));
    evict(&table, 1, 0);
    OK(fc_begin_fetch(&table, 1, 0, &job));
    OK(fc_wanted(&table, job, 0, &number));
    CODE(fc_wanted(&table, job, 1, &number), FC_NOTHING);
    const content right = shelf[number];
    for (size_t bit = 0; bit < 8 * right.len; bit++) {
        memcpy(bytes, right.bytes, right.len);
        bytes[bit / 8] ^= (uint8_t)(1 << bit % 8);
        is_refused(&table, job, number, bytes, right.len);
    }
    for (size_t len = 0; len < right.len; len++) is_refused(&table, job, number, right.bytes, len);
    is_refused(&table, job, number, shelf[older].bytes, shelf[older].len);
    is_refused(&table, job, number, shelf[other].bytes, shelf[other].len);
    CODE(fc_deliver(&table, job, older, shelf[older].bytes, shelf[older].len), FC_STALE_JOB);
    CODE(fc_carry(&table, job), FC_FAR_FAULT);
    OK(fc_deliver(&table, job, number, right.bytes, right.len));
    /* (a refused delivery leaves what was delivered before) */
    is_refused(&table, job, number, right.bytes, right.len - 1);
    OK(fc_carry(&table, job));
    CODE(fc_wanted(&table, job, 0, &number), FC_NOTHING);
    OK(fc_install(&table, job));
    /* (a recount reads local columns where they are: no content is delivered now) */
    OK(fc_watch(&table, &BY_NAME, &by_name));
    OK(fc_recount(&table, by_name, &lines));
    CHECK(lines == 2);
    OK(fc_close(&table));
}

/* What was delivered for a job is kept until the job is carried or given up, whatever becomes of other jobs. */
static void deliveries(void) {
    fc_table table;
    uint32_t by_name;
    uint64_t build, texts, numbers, first, second, number;
    open_bakery(&table);
    const content names = shelf[evict(&table, 0, 0)], counts = shelf[evict(&table, 1, 0)];
    OK(fc_watch(&table, &BY_NAME, &by_name));
    OK(fc_begin_offload(&table, by_name, 0, &build));
    OK(fc_wanted(&table, build, 0, &first));
    OK(fc_wanted(&table, build, 1, &second));
    OK(fc_deliver(&table, build, first, shelf[first].bytes, shelf[first].len));
    CODE(fc_carry(&table, build), FC_FAR_FAULT);
    OK(fc_deliver(&table, build, second, shelf[second].bytes, shelf[second].len));
    OK(fc_carry(&table, build));
    OK(fc_merge(&table, build));
    /* (both contents of the build are forgotten) */
    OK(fc_begin_fetch(&table, 0, 0, &texts));
    OK(fc_begin_fetch(&table, 1, 0, &numbers));
    CODE(fc_carry(&table, texts), FC_FAR_FAULT);
    CODE(fc_carry(&table, numbers), FC_FAR_FAULT);
    OK(fc_wanted(&table, texts, 0, &number));
    OK(fc_deliver(&table, texts, number, shelf[number].bytes, shelf[number].len));
    OK(fc_wanted(&table, numbers, 0, &number));
    OK(fc_deliver(&table, numbers, number, shelf[number].bytes, shelf[number].len));
    OK(fc_give_up(&table, texts));
    OK(fc_carry(&table, numbers));
    OK(fc_begin_fetch(&table, 0, 0, &texts));
    CODE(fc_carry(&table, texts), FC_FAR_FAULT);
    OK(fc_deliver_copy(&table, 0, 0, names.bytes, names.len));
    OK(fc_deliver_copy(&table, 1, 0, counts.bytes, counts.len));
    OK(fc_migrate(&table, 10));
    OK(fc_close(&table));
}

void test_deliveries(void) {
    lies();
    deliveries();
}
