/* Jobs that move objects or build row groups, pins, space and renewals. */
#include "tests.h"

/* A pinned object is evicted, and fetched: the sum is there all the time. */
static void evicted_and_fetched(fc_table *table) {
    fc_object object;
    fc_job about;
    uint64_t job, number = 999;
    uint32_t total;
    OK(fc_watch(table, &TOTAL, &total));
    OK(fc_scan(table, total, 0));
    OK(fc_object_of(table, 1, 0, &object));
    CHECK(object.local && object.dirty && object.pins == 0 && !object.has_copy);
    CODE(fc_object_of(table, 1, 1, &object), FC_OUT_OF_RANGE);
    OK(fc_pin(table, 1, 0));
    CODE(fc_pin(table, 2, 0), FC_NO_COLUMN);
    OK(fc_begin_evict(table, 1, 0, &job));
    OK(fc_job_of(table, job, &about));
    CHECK(about.kind == FC_EVICT && !about.carried && about.column == 1 && about.group == 0);
    CODE(fc_job_of(table, 77, &about), FC_STALE_JOB);
    CHECK(!keep(table, job, &number));
    OK(fc_carry(table, job));
    CODE(fc_carry(table, job), FC_STALE_JOB);
    CHECK(keep(table, job, &number));
    CODE(fc_commit(table, job), FC_PINNED);
    OK(fc_unpin(table, 1, 0));
    CODE(fc_unpin(table, 1, 0), FC_NOT_PINNED);
    OK(fc_commit(table, job));
    CODE(fc_commit(table, job), FC_STALE_JOB);
    OK(fc_object_of(table, 1, 0, &object));
    CHECK(!object.local && object.has_copy && object.copy == number);
    CHECK(is_total(table, total, 3, 10));
    CODE(insert(table, "oat", 1), FC_ABSENT);
    OK(fetch(table, 1, 0));
    CODE(fetch(table, 1, 0), FC_STALE_JOB);
    OK(insert(table, "oat", 1));
    CHECK(is_total(table, total, 4, 11));
}

/* Jobs that are given up, that fail, and that are ended by the call of another kind. */
static void ended_otherwise(fc_table *table) {
    uint64_t job;
    OK(fc_begin_coldest(table, &job));
    OK(fc_give_up(table, job));
    CODE(fc_give_up(table, job), FC_STALE_JOB);
    OK(fc_begin_evict(table, 1, 0, &job));
    CODE(fc_fault(table, job), FC_FAR_FAULT);
    CODE(fc_fault(table, 77), FC_STALE_JOB);
    CODE(fc_install(table, job), FC_STALE_JOB);
}

/* A row group is built into an aggregate from two contents. */
static void built(fc_table *table) {
    uint64_t job, number = 999;
    uint32_t by_name;
    size_t lines;
    evict(table, 0, 0);
    evict(table, 1, 0);
    OK(fc_watch(table, &BY_NAME, &by_name));
    OK(fc_begin_offload(table, by_name, 0, &job));
    for (size_t i = 0; fc_wanted(table, job, i, &number) == FC_OK; i++)
        OK(fc_deliver(table, job, number, shelf[number].bytes, shelf[number].len));
    OK(fc_carry(table, job));
    OK(fc_merge(table, job));
    OK(fc_ask(table, by_name, &lines));
    CHECK(lines == 3);
    CODE(fc_begin_offload(table, by_name, 0, &job), FC_STALE_JOB);
    OK(fetch(table, 1, 0));
}

static void proposals_and_space(fc_table *table) {
    fc_space space;
    uint32_t next[2];
    size_t count;
    OK(fc_saw(table, 1, 0));
    CODE(fc_saw(table, 2, 0), FC_NO_COLUMN);
    OK(fc_proposals(table, 1, next, 2, &count));
    CHECK(count == 0);
    CODE(fc_proposals(table, 1, next, 1, &count), FC_BAD_ARGUMENT);
    OK(fc_space_of(table, FC_INT, &space));
    CHECK(space.segments == 4 && space.size == 16);
    CODE(fc_space_of(table, 0, &space), FC_BAD_ARGUMENT);
    OK(fc_compact(table, FC_INT, 0));
    CODE(fc_compact(table, FC_INT, 4), FC_OUT_OF_RANGE);
}

static void moving(void) {
    fc_table table;
    uint64_t begun, waiting;
    open_bakery(&table);
    evicted_and_fetched(&table);
    ended_otherwise(&table);
    built(&table);
    proposals_and_space(&table);
    OK(fc_jobs(&table, &begun, &waiting));
    CHECK(begun > 0);
    OK(fc_close(&table));
}

static void refused_jobs(void) {
    fc_table table;
    uint64_t job = 99, number = 99;
    fc_bytes bytes = fc_no_bytes;
    open_bakery(&table);
    CODE(fc_begin_evict(&table, 2, 0, &job), FC_NO_COLUMN);
    CODE(fc_begin_evict(&table, 1, 1, &job), FC_OUT_OF_RANGE);
    CODE(fc_begin_fetch(&table, 1, 0, &job), FC_STALE_JOB);
    CODE(fc_begin_offload(&table, 0, 0, &job), FC_NO_AGGREGATE);
    CODE(fc_merge(&table, 0), FC_STALE_JOB);
    CODE(fc_outgoing(&table, 0, &number, &bytes), FC_STALE_JOB);
    CODE(fc_wanted(&table, 0, 0, &number), FC_STALE_JOB);
    CODE(fc_deliver_copy(&table, 1, 0, bytes.at, 0), FC_NOTHING);
    OK(fc_pin(&table, 0, 0));
    OK(fc_pin(&table, 1, 0));
    CODE(fc_begin_coldest(&table, &job), FC_NOTHING);
    CHECK(job == 99);
    OK(fc_begin_evict(&table, 1, 0, &job));
    CODE(fc_outgoing(&table, job, &number, &bytes), FC_NOTHING);
    CODE(fc_merge(&table, job), FC_STALE_JOB);
    CHECK(number == 99 && bytes.len == 0);
    OK(fc_close(&table));
}

static void going_on(void) {
    fc_table table;
    fc_object object;
    uint32_t total;
    uint64_t faults, old;
    fc_limits limits;
    uint32_t columns, kind, places;
    open_bakery(&table);
    OK(fc_watch(&table, &TOTAL, &total));
    OK(fc_scan(&table, total, 0));
    evict(&table, 0, 0);
    old = evict(&table, 1, 0);
    OK(fetch(&table, 0, 0));
    CODE(fc_migrate(&table, 10), FC_FAR_FAULT);
    CODE(fc_deliver_copy(&table, 1, 0, shelf[old].bytes, shelf[old].len - 1), FC_FAR_FAULT);
    OK(fc_deliver_copy(&table, 1, 0, shelf[old].bytes, shelf[old].len));
    OK(fc_migrate(&table, 10));
    OK(fc_object_of(&table, 1, 0, &object));
    CHECK(!object.local && object.has_copy && object.copy == 0);
    shelf[0] = shelf[old];
    OK(fetch(&table, 1, 0));
    CHECK(is_total(&table, total, 3, 10));
    OK(fc_faults(&table, &faults));
    CHECK(faults == 2);
    OK(fc_limits_of(&table, &limits));
    CHECK(memcmp(&limits, &LIMITS, sizeof limits) == 0);
    OK(fc_columns(&table, &columns));
    OK(fc_places(&table, &places));
    CHECK(columns == 2 && places == 3);
    OK(fc_kind_of(&table, 0, &kind));
    CHECK(kind == FC_TEXT);
    CODE(fc_kind_of(&table, 2, &kind), FC_NO_COLUMN);
    OK(fc_close(&table));
    CHECK(blocks == 0);
}

void test_moves(void) {
    moving();
    refused_jobs();
    going_on();
}
