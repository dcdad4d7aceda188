/* What the tests of the calls share: a table of texts and numbers in row groups of 4, and storage for its contents. */
#ifndef TESTS_H
#define TESTS_H

#include <string.h>
#include "checks.h"
#include "fullercoral.h"

/* The columns and the limits of the table, and three aggregates of it. */
extern const uint32_t KINDS[2];
extern const fc_limits LIMITS;
extern const fc_spec BY_NAME, TOTAL, RANGE;

fc_bytes text(const char *of);
fc_cell int_cell(int64_t of);
fc_cell text_cell(const char *of);

/* Opens the table, with three rows: bread 5, rye 3, bread 2. */
void open_bakery(fc_table *table);
uint32_t insert(fc_table *table, const char *of, int64_t quantity);

/* What the storage keeps, by number. */
typedef struct {
    uint8_t bytes[256];
    size_t len;
} content;

extern content shelf[1000];

/* Stores the content that a carried eviction puts, and writes its number. Returns false if there is none. */
bool keep(fc_table *table, uint64_t job, uint64_t *number);
/* Evicts an object. Returns the number of its content. */
uint64_t evict(fc_table *table, uint32_t column, uint32_t group);
/* Fetches an object. Returns the code of the call that begins or ends the job. */
uint32_t fetch(fc_table *table, uint32_t column, uint32_t group);

/* Whether an aggregate without key has this count and sum. */
bool is_total(fc_table *table, uint32_t aggregate, uint64_t count, int64_t sum);
/* Whether the last answer has the line of a key at this index. */
bool is_found(fc_table *table, fc_cell key, size_t at);

/* The tests, by topic: each is in the file of its name. */
void test_edits(void);
void test_answers(void);
void test_reads(void);
void test_moves(void);
void test_closed(void);
void test_deliveries(void);
void test_memory(void);

#endif
