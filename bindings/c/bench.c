/* What the library costs: an insert, many rows by columns, a set, many cells by columns, an ask, an ask of one key, a line that is found, a
 * part copied out, a content that goes out and comes back; beside memcpy. bench [ROWS]. At the top of the repository:
 *     cc -O2 -Iinclude bindings/c/bench.c lib/libfullercoral.a -o bench && ./bench */
#define _XOPEN_SOURCE 700
#include <stdio.h>
#include <stdlib.h>
#include <string.h>
#include <time.h>
#include "fullercoral.h"

enum { GROUP = 32768, COLUMNS = 2 };

static double now(void) {
    struct timespec at;
    clock_gettime(CLOCK_MONOTONIC, &at);
    return (double)at.tv_sec + 1e-9 * (double)at.tv_nsec;
}

static void ok(uint32_t code, const char *what) {
    if (code == FC_OK) return;
    fprintf(stderr, "%s: code %u\n", what, (unsigned)code);
    exit(1);
}

static void *room(size_t size) {
    void *made = malloc(size);
    if (!made) exit(4);
    memset(made, 1, size);
    return made;
}

static void open_table(fc_table *table, size_t rows) {
    const uint32_t kinds[COLUMNS] = {FC_INT, FC_INT};
    const uint32_t groups = (uint32_t)(rows / GROUP + 1);
    const fc_limits limits = {.edits = (uint64_t)1 << 40, .group = GROUP, .places = 1 << 24, .int_segments = COLUMNS * groups + 2,
                              .int_size = GROUP, .text_segments = 1, .text_size = 64};
    ok(fc_open(table, kinds, COLUMNS, &limits, 1 << 20), "open");
}

static void insert_all(fc_table *table, size_t rows) {
    uint32_t place;
    for (size_t i = 0; i < rows; i++) {
        const fc_cell row[COLUMNS] = {{(int64_t)(i % 1000), fc_no_bytes, FC_INT}, {(int64_t)i, fc_no_bytes, FC_INT}};
        ok(fc_insert(table, row, COLUMNS, &place), "insert");
    }
}

static void insert_columns(fc_table *table, size_t rows, const int64_t *numbers) {
    size_t inserted;
    const fc_column column = {.numbers = numbers, .numbers_len = rows, .kind = FC_INT};
    const fc_column columns[COLUMNS] = {column, column};
    ok(fc_insert_columns(table, columns, COLUMNS, rows, &inserted), "insert_columns");
}

/* Sets the cells of each place, call by call and then in one call. */
static void set_all(fc_table *table, size_t rows, const int64_t *numbers) {
    const fc_column column = {.numbers = numbers, .numbers_len = rows, .kind = FC_INT};
    uint32_t *places = room(4 * rows);
    size_t set;
    for (size_t i = 0; i < rows; i++) places[i] = (uint32_t)i;
    double begun = now();
    for (size_t i = 0; i < rows; i++) {
        const fc_cell cell = {numbers[i], fc_no_bytes, FC_INT};
        ok(fc_set(table, 1, places[i], &cell), "set");
    }
    const double each = (now() - begun) / (double)rows;
    begun = now();
    ok(fc_set_column(table, 1, places, rows, &column, &set), "set_column");
    printf("set of a number: %.0f ns; of many in one call: %.0f ns each\n", each * 1e9, (now() - begun) / (double)rows * 1e9);
    free(places);
}

static void find(fc_table *table) {
    const fc_spec by_key = {.fold = FC_TOTALS, .value = 1, .key = 0, .has_key = true};
    const int finds = 1000000;
    uint32_t aggregate;
    size_t lines, index;
    ok(fc_watch(table, &by_key, &aggregate), "watch");
    ok(fc_recount(table, aggregate, &lines), "recount");
    double begun = now();
    for (int i = 0; i < finds; i++) {
        const fc_cell key = {i % 1000, fc_no_bytes, FC_INT};
        ok(fc_find(table, &key, &index), "find");
    }
    printf("find among %zu lines: %.0f ns\n", lines, (now() - begun) / finds * 1e9);
    ok(fc_unwatch(table, aggregate), "unwatch");
}

static void ask(fc_table *table) {
    const fc_spec total = {.fold = FC_TOTALS, .value = 1};
    uint32_t aggregate, pending, first;
    size_t lines;
    const int asks = 1000000;
    ok(fc_watch(table, &total, &aggregate), "watch");
    while (fc_pending(table, aggregate, &pending, &first) == FC_OK && pending) ok(fc_scan(table, aggregate, first), "scan");
    double begun = now();
    for (int i = 0; i < asks; i++) ok(fc_ask(table, aggregate, &lines), "ask");
    printf("ask of one line: %.0f ns\n", (now() - begun) / asks * 1e9);
}

/* Asks for one key of 1,000: of the numbers 0 to 999, of as many far apart, and of texts; beside an ask of all keys. */
static void ask_keys(uint32_t kind, int64_t apart, const char *what) {
    enum { KEYS = 1000, ASKS = 1000000 };
    static char names[KEYS][16];
    const uint32_t kinds[COLUMNS] = {kind, FC_INT};
    const fc_limits limits = {.edits = (uint64_t)1 << 40, .group = GROUP, .places = GROUP, .int_segments = 3, .int_size = GROUP,
                              .text_segments = 2, .text_size = 1 << 20};
    const fc_spec by_key = {.fold = FC_TOTALS, .value = 1, .key = 0, .has_key = true};
    fc_table table = {NULL};
    fc_line line;
    fc_cell keys[KEYS];
    uint32_t aggregate, place;
    size_t lines;
    ok(fc_open(&table, kinds, COLUMNS, &limits, 1), "open");
    ok(fc_watch(&table, &by_key, &aggregate), "watch");
    for (int i = 0; i < KEYS; i++) {
        const int len = snprintf(names[i], sizeof names[i], "customer %04d", i);
        keys[i] = (fc_cell){i * apart, {(const uint8_t *)names[i], (size_t)len}, kind};
        const fc_cell row[COLUMNS] = {keys[i], {i, fc_no_bytes, FC_INT}};
        ok(fc_insert(&table, row, COLUMNS, &place), "insert");
    }
    double begun = now();
    for (int i = 0; i < ASKS; i++) ok(fc_ask_key(&table, aggregate, &keys[i * 7 % KEYS], &line), "ask_key");
    const double one = (now() - begun) / ASKS;
    begun = now();
    for (int i = 0; i < ASKS / KEYS; i++) ok(fc_ask(&table, aggregate, &lines), "ask");
    printf("ask of one key of %zu, %s: %.0f ns; of all: %.1f us\n", lines, what, one * 1e9, (now() - begun) / ASKS * KEYS * 1e6);
    ok(fc_close(&table), "close");
}

/* The least time of some turns: a machine that does other things too adds to the others. */
static double least(double best, double took) { return took < best ? took : best; }

static void copy_out(fc_table *table, size_t rows, int64_t *values, bool *valid, bool *alive) {
    const uint32_t part = (uint32_t)(rows < 1000000 ? rows : 1000000);
    /* It reads 17 bytes a place (a number, and whether it is alive) and writes 10. */
    const size_t half = (size_t)part * 27 / 2;
    uint8_t *from = room(half), *to = room(half);
    double took = 1e9, copied = 1e9;
    for (int turn = 0; turn < 20; turn++) {
        const double begun = now();
        ok(fc_numbers(table, 1, 0, part, values, part, valid, part, alive, part), "numbers");
        took = least(took, now() - begun);
        const double again = now();
        memcpy(to, from, half);
        copied = least(copied, now() - again);
        from[turn] = to[turn + 1];
    }
    printf("numbers of %u places: %.2f ns each; memcpy of as many bytes: %.2f ns each\n", (unsigned)part, took / part * 1e9,
           copied / part * 1e9);
    free(from);
    free(to);
}

/* Bytes that a content's way reads and writes for a number, apart from its SHA-256. A number takes 16 in the local region and 8 in the
 * content. Out: encoded, and compared at the commit. Back: decoded into a list, and copied from there. */
enum { OUT = 16 + 8 + 16 + 8, BACK = 8 + 16 + 16 + 16 };

static void move(fc_table *table, size_t rows) {
    double begin = 0, carry = 0, commit = 0, wanted = 0, deliver = 0, read = 0, install = 0, copied = 0;
    const uint32_t groups = (uint32_t)(rows / GROUP);
    size_t moved = 0;
    const size_t half = (size_t)GROUP * (OUT / 2);
    uint8_t *shelf = room((size_t)GROUP * 16 + 64), *from = room(groups * half), *to = room(groups * half);
    for (uint32_t group = 0; group < groups; group++) {
        uint64_t job, number;
        fc_bytes bytes;
        double at[8];
        at[0] = now();
        ok(fc_begin_evict(table, 1, group, &job), "begin");
        at[1] = now();
        ok(fc_carry(table, job), "carry");
        at[2] = now();
        ok(fc_outgoing(table, job, &number, &bytes), "outgoing");
        const size_t len = bytes.len;
        memcpy(shelf, bytes.at, len);
        const double copy = now();
        memcpy(to + group * half, from + group * half, half);
        copied += now() - copy;
        const double again = now();
        ok(fc_commit(table, job), "commit");
        commit += now() - again;
        at[3] = now();
        ok(fc_begin_fetch(table, 1, group, &job), "begin");
        at[4] = now();
        ok(fc_deliver(table, job, number, shelf, len), "deliver");
        at[5] = now();
        ok(fc_carry(table, job), "carry");
        at[6] = now();
        ok(fc_install(table, job), "install");
        at[7] = now();
        begin += at[1] - at[0];
        carry += at[2] - at[1];
        wanted += at[4] - at[3];
        deliver += at[5] - at[4];
        read += at[6] - at[5];
        install += at[7] - at[6];
        moved += len;
    }
    const double mib = (double)moved / 1048576;
    printf("out, ms a MiB: begin %.2f, carry (SHA-256) %.2f, commit %.2f\n", begin / mib * 1e3, carry / mib * 1e3, commit / mib * 1e3);
    printf("back, ms a MiB: begin %.2f, deliver (SHA-256) %.2f, carry %.2f, install %.2f\n", wanted / mib * 1e3, deliver / mib * 1e3,
           read / mib * 1e3, install / mib * 1e3);
    printf("SHA-256 apart, ms a MiB: out %.2f, memcpy of as many bytes %.2f; back %.2f, memcpy of as many bytes %.2f\n",
           (begin + commit) / mib * 1e3, copied / mib * 1e3, (read + install) / mib * 1e3, copied * BACK / OUT / mib * 1e3);
    free(shelf);
    free(from);
    free(to);
}

int main(int argc, char **argv) {
    const size_t rows = argc > 1 ? (size_t)atol(argv[1]) : 1000000;
    fc_table table = {NULL};
    int64_t *numbers = room(8 * rows);
    bool *valid = room(rows), *alive = room(rows);
    open_table(&table, rows);
    double begun = now();
    insert_all(&table, rows);
    printf("insert of a row of two numbers: %.0f ns\n", (now() - begun) / (double)rows * 1e9);
    find(&table);
    ok(fc_close(&table), "close");
    open_table(&table, rows);
    begun = now();
    insert_columns(&table, rows, numbers);
    printf("a row by columns: %.0f ns\n", (now() - begun) / (double)rows * 1e9);
    ask(&table);
    ask_keys(FC_INT, 1, "small numbers");
    ask_keys(FC_INT, 1000003, "numbers");
    ask_keys(FC_TEXT, 1, "texts");
    set_all(&table, rows, numbers);
    copy_out(&table, rows, numbers, valid, alive);
    move(&table, rows);
    ok(fc_close(&table), "close");
    free(numbers);
    free(valid);
    free(alive);
    return 0;
}
