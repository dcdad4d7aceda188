/* A table of eight times its local memory, over a file: what the process holds while nearly all of it is away, and that the answer stays
 * exact. larger [ROWS]. Prints memory in KB. At the top of the repository:
 *     cc -O2 -Iinclude bindings/c/larger.c lib/libfullercoral.a -o larger && ./larger */
#define _XOPEN_SOURCE 700
#include <stdio.h>
#include <stdlib.h>
#include <string.h>
#include <unistd.h>
#include "fullercoral.h"

enum { GROUP = 4096, COLUMNS = 2, CONTENTS = 1 << 16 };

static FILE *file;
static off_t begins[CONTENTS];
static uint64_t evictions;

static void ok(uint32_t code, const char *what) {
    if (code == FC_OK) return;
    fprintf(stderr, "%s: code %u\n", what, (unsigned)code);
    exit(1);
}

/* Evicts the object that was used least recently. Returns false if there is none. */
static bool evict_coldest(fc_table *table) {
    static off_t end;
    uint64_t job, number;
    fc_bytes bytes;
    uint32_t code = fc_begin_coldest(table, &job);
    if (code == FC_NOTHING) return false;
    ok(code, "begin_coldest");
    ok(fc_carry(table, job), "carry");
    if (fc_outgoing(table, job, &number, &bytes) == FC_OK) {
        begins[number] = end;
        if (pwrite(fileno(file), bytes.at, bytes.len, end) != (ssize_t)bytes.len) exit(3);
        end += (off_t)bytes.len;
    }
    ok(fc_commit(table, job), "commit");
    evictions++;
    return true;
}

static void insert(fc_table *table, int64_t i) {
    const fc_cell row[COLUMNS] = {{.number = i % 100, .kind = FC_INT}, {.number = i, .kind = FC_INT}};
    uint32_t place, code;
    while ((code = fc_insert(table, row, COLUMNS, &place)) == FC_REGION_FULL) {
        if (!evict_coldest(table)) break;
    }
    ok(code, "insert");
}

/* A figure of /proc/self/status, in KB. */
static long memory(const char *field) {
    char line[256];
    long found = 0;
    FILE *status = fopen("/proc/self/status", "r");
    if (!status) return 0;
    while (fgets(line, sizeof line, status)) {
        if (strncmp(line, field, strlen(field)) == 0) found = atol(line + strlen(field) + 1);
    }
    fclose(status);
    return found;
}

int main(int argc, char **argv) {
    const size_t rows = argc > 1 ? (size_t)atol(argv[1]) : 2000000;
    const uint32_t kinds[COLUMNS] = {FC_INT, FC_INT};
    const uint32_t segments = (uint32_t)(rows * COLUMNS / GROUP / 8 + 3);
    const fc_limits limits = {.edits = (uint64_t)1 << 40, .group = GROUP, .places = 1 << 24, .int_segments = segments, .int_size = GROUP,
                              .text_segments = 1, .text_size = 64};
    const fc_spec by_key = {.fold = FC_TOTALS, .value = 1, .key = 0, .has_key = true};
    fc_table table = {NULL};
    fc_line line;
    uint32_t aggregate;
    size_t lines;
    if (!(file = tmpfile())) return 3;
    const long before = memory("VmRSS:");
    ok(fc_open(&table, kinds, COLUMNS, &limits, CONTENTS), "open");
    ok(fc_watch(&table, &by_key, &aggregate), "watch");
    for (size_t i = 0; i < rows; i++) insert(&table, (int64_t)i);
    while (evict_coldest(&table)) {
    }
    ok(fc_ask(&table, aggregate, &lines), "ask");
    ok(fc_line_at(&table, 7, &line), "line");
    printf("rows %zu, all away in %llu contents\n", rows, (unsigned long long)evictions);
    printf("key 7: count %llu sum %llu\n", (unsigned long long)line.count, (unsigned long long)line.sum_low);
    const long region = (long)segments * GROUP * 16 / 1024;
    printf("local region %ld KB, 64 bytes a content %ld KB\n", region, (long)(evictions * 64 / 1024));
    printf("resident %ld KB, at most %ld KB, before the table %ld KB\n", memory("VmRSS:"), memory("VmHWM:"), before);
    printf("the table as numbers: %zu KB, as cells: %zu KB\n", rows * COLUMNS * 8 / 1024, rows * COLUMNS * 16 / 1024);
    ok(fc_close(&table), "close");
    fclose(file);
    return 0;
}
