/* A bakery's orders: a table with live totals whose chunks go to a file and come back. Prints what it finds. */
#include <stdio.h>
#include <stdlib.h>
#include "fullercoral.h"

enum { CONTENTS = 64 };

/* The storage: a file to which contents are appended, with where each lies. Nothing of it has to be trusted. The table gives out numbers
 * below the capacity of fc_open, CONTENTS, so a number is an index here. */
static FILE *file;
static long begins[CONTENTS], lengths[CONTENTS];

static void ok(uint32_t code, const char *what) {
    if (code == FC_OK) return;
    fprintf(stderr, "%s: code %u\n", what, (unsigned)code);
    exit(1);
}

/* Keeps the bytes of a carried eviction under the number that the table asks for. */
static void keep(fc_table *table, uint64_t job) {
    uint64_t number;
    fc_bytes bytes;
    uint32_t code = fc_outgoing(table, job, &number, &bytes);
    if (code == FC_NOTHING) return; /* the file has this content already */
    ok(code, "outgoing");
    fseek(file, 0, SEEK_END);
    begins[number] = ftell(file);
    lengths[number] = (long)bytes.len;
    /* fc_fault never returns FC_OK, so a failed write ends the program here. */
    if (fwrite(bytes.at, 1, bytes.len, file) != bytes.len) ok(fc_fault(table, job), "write");
}

static void evict(fc_table *table, uint32_t column, uint32_t group) {
    uint64_t job;
    ok(fc_begin_evict(table, column, group, &job), "begin");
    ok(fc_carry(table, job), "carry");
    keep(table, job);
    ok(fc_commit(table, job), "commit");
}

/* Brings an object back. `flip` spoils a byte on the way, as a broken disk would: the table then refuses what it gets. */
static uint32_t fetch(fc_table *table, uint32_t column, uint32_t group, uint8_t flip) {
    uint64_t job, number;
    uint8_t bytes[256];
    ok(fc_begin_fetch(table, column, group, &job), "begin");
    ok(fc_wanted(table, job, 0, &number), "wanted");
    fseek(file, begins[number], SEEK_SET);
    size_t length = fread(bytes, 1, (size_t)lengths[number], file);
    bytes[0] ^= flip;
    uint32_t code = fc_deliver(table, job, number, bytes, length);
    if (code != FC_OK) {
        ok(fc_give_up(table, job), "give up");
        return code;
    }
    ok(fc_carry(table, job), "carry");
    return fc_install(table, job);
}

static uint32_t insert(fc_table *table, const char *name, size_t length, int64_t quantity) {
    fc_cell row[2] = {{.text = {(const uint8_t *)name, length}, .kind = FC_TEXT}, {.number = quantity, .kind = FC_INT}};
    uint32_t place;
    return fc_insert(table, row, 2, &place);
}

/* Prints how many orders there are of each kind of bread, and their sum. (A sum has 128 bits: these fit the low half.) */
static void print_answer(fc_table *table, uint32_t sold) {
    size_t lines;
    ok(fc_ask(table, sold, &lines), "ask");
    for (size_t i = 0; i < lines; i++) {
        fc_line line;
        ok(fc_line_at(table, i, &line), "line");
        printf("%.*s count %llu sum %lld\n", (int)line.key_text.len, (const char *)line.key_text.at, (unsigned long long)line.count,
               (long long)line.sum_low);
    }
}

int main(void) {
    const uint32_t kinds[2] = {FC_TEXT, FC_INT};
    const fc_limits limits = {.edits = 1000, .group = 4, .places = 100, .int_segments = 4, .int_size = 16, .text_segments = 4,
                              .text_size = 256};
    const fc_spec by_name = {.fold = FC_TOTALS, .value = 1, .key = 0, .has_key = true};
    const fc_cell nine = {.number = 9, .kind = FC_INT};
    fc_table table = {NULL};
    fc_details why;
    uint32_t sold;
    if (!(file = tmpfile())) return 1;
    ok(fc_open(&table, kinds, 2, &limits, CONTENTS), "open");
    ok(fc_watch(&table, &by_name, &sold), "watch");
    ok(insert(&table, "bread", 5, 5), "insert");
    ok(insert(&table, "rye", 3, 3), "insert");
    ok(insert(&table, "bread", 5, 2), "insert");
    evict(&table, 1, 0);
    printf("the quantities are in the file\n");
    print_answer(&table, sold);
    uint32_t code = fc_set(&table, 1, 1, &nine);
    ok(fc_last_refusal(&table, &why), "why");
    printf("set: code %u, of column %u and row group %u\n", (unsigned)code, (unsigned)why.column, (unsigned)why.group);
    printf("a spoiled content: code %u\n", (unsigned)fetch(&table, 1, 0, 1));
    ok(fetch(&table, 1, 0, 0), "fetch");
    ok(fc_set(&table, 1, 1, &nine), "set");
    ok(fc_remove(&table, 0), "remove");
    print_answer(&table, sold);
    ok(fc_close(&table), "close");
    printf("closed: code %u\n", (unsigned)fc_close(&table));
    fclose(file);
    return 0;
}
