/* Fullercoral: a columnar table with live aggregates whose column chunks may be evicted to storage that the calling program owns.
 *
 * A table has 1 to 16 columns of 64-bit numbers or of texts. Its rows stand at places 0, 1, 2, .. in the order in which they were
 * inserted; a removed row keeps its place. `group` consecutive places are a row group. The chunk of one column in one row group is an
 * object. Objects lie in the local region, and each may be evicted: the calling program then keeps its bytes, wherever it likes.
 *
 * Every call returns a code: FC_OK, the number of a refusal, or one of the codes from FC_CLOSED on. A call that is not FC_OK changes
 * no row, no aggregate and no object, and leaves its out parameters alone unless its comment says otherwise. Two calls are different:
 * of fc_insert_columns and fc_set_column the rows and cells before the refused one stay.
 *
 * What code can see of pointers is tested. Before anything else a call returns
 *
 *   - FC_CLOSED if the handle is closed, null or not aligned (but fc_open FC_ALREADY_OPEN if it is open, FC_BAD_ARGUMENT if it is null or
 *     not aligned);
 *   - then FC_BAD_ARGUMENT if another pointer is null or not aligned for its type, if an array or a text is longer than an object can be
 *     (PTRDIFF_MAX bytes), if what fc_numbers, fc_texts or fc_ask_key is to fill overlaps itself or the key, or if `has_key` is no bool.
 *
 * That goes for the pointers of a struct, used or not. An array or a text of length 0 is empty whatever its pointer is, also null: so what
 * an initializer leaves out is right. But a row of more than 16 cells, or a list of more than 4 tests, with a null text in it is
 * FC_BAD_ARGUMENT.
 *
 * These tests are in C, and tested. The code that they call is proved to do what its contracts say, for all arguments, if the caller keeps
 * to these rules, which say what no code can see.
 *
 *   1. A pointer that is not null points to an object of its type, or to an array of the length that comes with it, unless that is 0.
 *   2. A handle is zeroed before fc_open, then written by calls alone, never copied, and given to one call at a time. It may go from
 *      thread to thread.
 *   3. What a call lends (an fc_bytes that it wrote) is read only until the next call with this handle, and not given to that one.
 *   4. No call is made from a signal handler, or in the child of a fork of a process with threads.
 *   5. malloc, realloc and free are of one allocator. (They are the C library's unless the program brings its own.)
 *
 * And one premise, about fc_deliver: no two contents that meet there have the same digest. It is their SHA-256; of 1,024 bytes and more,
 * which are hashed in four parts side by side, the SHA-256 of the parts' SHA-256. So whoever breaks the premise has broken SHA-256.
 */
#ifndef FULLERCORAL_H
#define FULLERCORAL_H

#include <stdbool.h>
#include <stddef.h>
#include <stdint.h>

#ifdef __cplusplus
extern "C" {
#endif

/* A handle on a table. Zeroed it is closed; so it is again after fc_close, and a call with it then returns FC_CLOSED. */
typedef struct fc_table {
    void *at;
} fc_table;

/* Codes. 1 to 24 are the numbers of the refusals of tables. */
enum fc_code {
    FC_OK = 0,
    FC_NO_MEMORY = 1,            /* an allocation failed */
    FC_BAD_SCHEMA = 2,           /* the kinds or the limits are outside what a table may have */
    FC_BAD_SPEC = 3,             /* more than 4 tests, or a text constant of more than 4,096 bytes */
    FC_NO_COLUMN = 4,            /* there is no such column */
    FC_WRONG_KIND = 5,           /* a cell, a constant or a column is of the other kind */
    FC_ROW_WIDTH = 6,            /* a row has another number of cells than there are columns */
    FC_TEXT_TOO_LONG = 7,        /* a text has more than 4,096 bytes */
    FC_NO_ROW = 8,               /* there is no such place */
    FC_REMOVED_ROW = 9,          /* the row of the place was removed */
    FC_TABLE_FULL = 10,          /* the limit of places is reached */
    FC_CHUNK_FULL = 11,          /* the texts of a row group would not fit a text segment */
    FC_NO_AGGREGATE = 12,        /* no aggregate has this number */
    FC_TOO_MANY_AGGREGATES = 13, /* 32 aggregates are registered */
    FC_OUT_OF_RANGE = 14,        /* a range, a row group or a segment does not exist */
    FC_BUILDING = 15,            /* row groups are pending in the aggregate: fc_details says how many */
    FC_ABSENT = 16,              /* an object is not local: fc_details says which */
    FC_REGION_FULL = 17,         /* no segment of the local region has the space */
    FC_NOT_PINNED = 18,          /* the object has no pin */
    FC_PINNED = 19,              /* the object has a pin */
    FC_STALE_JOB = 20,           /* what the job or the scan rests on does not hold any more */
    FC_FAR_FAULT = 21,           /* a content was not delivered, or not the one that was put */
    FC_FAR_FULL = 22,            /* the numbers of contents are used up: fc_migrate goes on with new ones */
    FC_EDITS_USED_UP = 24,       /* the limit of edits, of jobs or of pins is reached */

    FC_CLOSED = 100,       /* the handle is closed, or null */
    FC_ALREADY_OPEN = 101, /* fc_open of an open handle */
    FC_NO_UTF8 = 102,      /* a text is no UTF-8 */
    FC_BAD_ARGUMENT = 103, /* a pointer is null or not aligned; what is to be filled overlaps; a length, a kind, a fold, a comparison or a
                            * bool is none of those that there are */
    FC_NOTHING = 104,      /* there is nothing of the kind asked for */
    FC_SHORT_BUFFER = 105, /* a buffer is shorter than what goes there */
    FC_USED_UP = 106       /* 2^62 faults were counted: the table can be read, and no job carried */
};

/* The kinds of columns and cells. */
enum fc_kind { FC_MISSING = 0, FC_INT = 1, FC_TEXT = 2 };

/* What an aggregate computes of the values under each key. */
enum fc_fold {
    FC_TOTALS = 0, /* how many there are, and their sum */
    FC_EXTREMA = 1 /* the least and the greatest */
};

/* The comparison of a test: of a number with a constant, or of a text with one, by bytes. A test of a missing cell is false. */
enum fc_op { FC_EQ = 0, FC_NE = 1, FC_LT = 2, FC_LE = 3, FC_GT = 4, FC_GE = 5, FC_TEXT_IS = 6, FC_TEXT_BEGINS = 7 };

/* What a job does. */
enum fc_job_kind { FC_EVICT = 0, FC_FETCH = 1, FC_OFFLOAD = 2 };

/* Bytes: a text in UTF-8, or a content. */
typedef struct fc_bytes {
    const uint8_t *at;
    size_t len;
} fc_bytes;

/* No bytes. */
static const fc_bytes fc_no_bytes = {(const uint8_t *)"", 0};

/* A cell. `number` counts if `kind` is FC_INT, `text` if it is FC_TEXT; else the text is empty, as where an initializer leaves it out. */
typedef struct fc_cell {
    int64_t number;
    fc_bytes text;
    uint32_t kind;
} fc_cell;

/* The limits of a table. The local memory is 16 * int_segments * int_size bytes for numbers and text_segments * text_size for texts. A row
 * group of numbers takes `group` elements of a segment, one of texts the bytes of its texts, 4 for each place, 6, and a bit for each place
 * if a text is missing; neither is divided between segments. So int_size is a multiple of `group`, and text_size at least what a row group
 * needs: 6 + group * (4 + B) for texts of B bytes on average, and group / 8 more if one is missing. An edit may need a segment of numbers
 * for each column of numbers, and two of texts for each column of texts, besides those of pinned objects. docs/EMBEDDING.md has an
 * example. */
typedef struct fc_limits {
    uint64_t edits;         /* how many edits, and how many jobs, are accepted: 1 to 2^40 */
    uint32_t group;         /* how many places a row group has: 1 to 65,536 */
    uint32_t places;        /* how many places the table may have: 1 to 2^24 */
    uint32_t int_segments;  /* how many segments the local region of numbers has: 1 to 1,024 */
    uint32_t int_size;      /* how many numbers one of them holds: from `group` to 1,048,576; a number takes 16 bytes */
    uint32_t text_segments; /* how many segments the local region of texts has: 1 to 1,024 */
    uint32_t text_size;     /* how many bytes one of them holds: 64 to 16,777,216 */
} fc_limits;

/* A test that a row must pass to be folded. */
typedef struct fc_test {
    int64_t number;  /* the constant of FC_EQ to FC_GE */
    fc_bytes text;   /* the constant of FC_TEXT_IS and FC_TEXT_BEGINS; else empty */
    uint32_t column;
    uint32_t op;     /* an fc_op */
} fc_test;

/* An aggregate: what it computes, of which column, by which key column, over which rows. */
typedef struct fc_spec {
    const fc_test *tests; /* a row is folded if it passes all of them; at most 4 */
    size_t tests_len;
    uint32_t fold;        /* an fc_fold */
    uint32_t value;       /* the column of the values, of numbers */
    uint32_t key;         /* the column of the keys, of either kind, if `has_key` */
    bool has_key;
} fc_spec;

/* What an aggregate is: as fc_spec, with the number of its tests in place of them. */
typedef struct fc_aggregate {
    uint32_t fold;  /* an fc_fold */
    uint32_t value; /* the column of the values */
    uint32_t key;   /* the column of the keys, if `has_key`; else 0 */
    uint32_t tests; /* how many tests a row must pass to be folded */
    bool has_key;
} fc_aggregate;

/* A column of rows to be inserted, or the cells of a column to be set, as Arrow lays columns out. */
typedef struct fc_column {
    const int64_t *numbers; /* of FC_INT: the values; else of length 0 */
    size_t numbers_len;
    const uint64_t *offsets; /* of FC_TEXT: where each text begins in `bytes`, and where the last one ends; else of length 0 */
    size_t offsets_len;
    const uint8_t *bytes; /* of FC_TEXT: the texts, one behind the other */
    size_t bytes_len;
    const uint8_t *valid; /* a bit for each row, the lowest first, set if the row has a value; of length 0 if all have one */
    size_t valid_len;
    uint32_t kind; /* FC_INT or FC_TEXT */
} fc_column;

/* A line of an answer: a key with what was computed under it. */
typedef struct fc_line {
    fc_bytes key_text;  /* the key, if `key_kind` is FC_TEXT; lent */
    int64_t key_number; /* the key, if `key_kind` is FC_INT */
    uint64_t count;     /* of FC_TOTALS: how many values */
    uint64_t sum_low;   /* of FC_TOTALS: their sum, as a number of 128 bits in two's complement; it fits 64 bits, as (int64_t)sum_low, */
    int64_t sum_high;   /* if sum_high is -1 with the highest bit of sum_low set, or 0 without it */
    int64_t min;        /* of FC_EXTREMA */
    int64_t max;
    uint32_t key_kind; /* FC_MISSING if the aggregate has no key column */
    uint32_t fold;     /* an fc_fold: which of the numbers above count */
} fc_line;

/* The count and the sum of an aggregate of totals without key. */
typedef struct fc_sum {
    uint64_t count;
    uint64_t sum_low; /* the sum, as a number of 128 bits in two's complement */
    int64_t sum_high;
} fc_sum;

/* What the last refusal carries: of FC_BUILDING how many row groups are pending, of FC_ABSENT which object is away. The codes from
 * FC_CLOSED on carry nothing, and are not kept. */
typedef struct fc_details {
    uint32_t code; /* the refusal that these are of; FC_OK if no call was refused yet */
    uint32_t pending;
    uint32_t column;
    uint32_t group;
} fc_details;

/* A job. */
typedef struct fc_job {
    uint32_t kind; /* an fc_job_kind */
    bool carried;
    uint32_t column; /* of FC_EVICT and FC_FETCH: the object's column and row group; of FC_OFFLOAD 0 and 0 */
    uint32_t group;
} fc_job;

/* An object. */
typedef struct fc_object {
    uint64_t copy;    /* the number of its content, if `has_copy` */
    uint64_t version; /* how often it was written */
    uint32_t pins;
    bool local;
    bool dirty; /* local, and written since its copy was kept, or without a copy */
    bool hot;   /* used since it was last passed over as a victim or compacted */
    bool has_copy;
} fc_object;

/* The space of the local region of one kind, in elements: numbers of 16 bytes, or bytes of texts. */
typedef struct fc_space {
    uint64_t used; /* by objects, and by what was left behind them until a compaction */
    uint64_t free;
    uint32_t segments;
    uint32_t size; /* of a segment */
} fc_space;

/* --- The table ------------------------------------------------------------------------------------------------------------------ */

/* Opens an empty table with these kinds of columns (FC_INT or FC_TEXT, 1 to 16 of them). All memory of its local region is allocated
 * here. `capacity` is how many contents may be given a number before fc_migrate is needed. Memory for their digests comes as they are
 * needed, 56 bytes each, so 2^32 suits most programs. Refused with FC_BAD_SCHEMA, FC_NO_MEMORY, FC_BAD_ARGUMENT (a kind),
 * FC_ALREADY_OPEN. */
uint32_t fc_open(fc_table *table, const uint32_t *kinds, size_t kinds_len, const fc_limits *limits, uint64_t capacity);

/* Closes the table and frees all of its memory. */
uint32_t fc_close(fc_table *table);

/* Writes what the last refused call with this handle carries. */
uint32_t fc_last_refusal(fc_table *table, fc_details *details);

/* --- Edits ---------------------------------------------------------------------------------------------------------------------- */

/* Appends a row, and writes its place. Refused with FC_WRONG_KIND, FC_ROW_WIDTH, FC_TEXT_TOO_LONG, FC_TABLE_FULL, FC_ABSENT (the last
 * row group is begun, and an object of it is away), FC_CHUNK_FULL, FC_REGION_FULL, FC_EDITS_USED_UP, FC_NO_MEMORY; before these with
 * FC_BAD_ARGUMENT (a kind) and FC_NO_UTF8. */
uint32_t fc_insert(fc_table *table, const fc_cell *cells, size_t cells_len, uint32_t *place);

/* Appends `rows` rows that are given column by column, in order, until one is refused. Writes how many were appended, also if it is
 * refused; the code is then the refusal of the next row, as fc_insert has it (FC_NO_UTF8: a text of that row). Refused with
 * FC_BAD_ARGUMENT before any row if the columns are not as many as the table's, or one has another kind or length than it should, too
 * few bits in `valid`, or offsets that descend or leave `bytes`. */
uint32_t fc_insert_columns(fc_table *table, const fc_column *columns, size_t columns_len, size_t rows, size_t *inserted);

/* Puts a cell into a column of a place. Refused with FC_NO_COLUMN, FC_WRONG_KIND, FC_TEXT_TOO_LONG, FC_NO_ROW, FC_REMOVED_ROW, FC_ABSENT
 * (an object of the place's row group is away), FC_CHUNK_FULL, FC_REGION_FULL, FC_EDITS_USED_UP, FC_NO_MEMORY; before these with
 * FC_BAD_ARGUMENT (a kind) and FC_NO_UTF8. */
uint32_t fc_set(fc_table *table, uint32_t column, uint32_t place, const fc_cell *cell);

/* Puts a cell into a column of each of `places`, in order, until one is refused. `values` has a row for each of them. Writes how many
 * were set, also if it is refused; the code is then the refusal of the next one, as fc_set has it. A place may stand there more than
 * once. Refused with FC_BAD_ARGUMENT before any cell if `values` has no kind that there is or another length than it should, too few
 * bits in `valid`, or offsets that descend or leave `bytes`; FC_NO_COLUMN and FC_WRONG_KIND come with the first cell. */
uint32_t fc_set_column(fc_table *table, uint32_t column, const uint32_t *places, size_t places_len, const fc_column *values, size_t *set);

/* Removes the row of a place. Refused with FC_NO_ROW, FC_REMOVED_ROW, FC_ABSENT, FC_EDITS_USED_UP, FC_NO_MEMORY. */
uint32_t fc_remove(fc_table *table, uint32_t place);

/* --- Aggregates ----------------------------------------------------------------------------------------------------------------- */

/* Registers an aggregate, and writes its number: the lowest free one of 0 to 31. All row groups with places are pending in it. Refused
 * with FC_BAD_SPEC, FC_NO_COLUMN, FC_WRONG_KIND, FC_TOO_MANY_AGGREGATES, FC_NO_MEMORY; before these with FC_BAD_ARGUMENT, FC_NO_UTF8. */
uint32_t fc_watch(fc_table *table, const fc_spec *spec, uint32_t *aggregate);

/* Forgets an aggregate. Refused with FC_NO_AGGREGATE. */
uint32_t fc_unwatch(fc_table *table, uint32_t aggregate);

/* Scans a row group into an aggregate. Refused with FC_NO_AGGREGATE, FC_OUT_OF_RANGE, FC_STALE_JOB (it is scanned already), FC_ABSENT (of
 * a column that the aggregate needs), FC_NO_MEMORY. */
uint32_t fc_scan(fc_table *table, uint32_t aggregate, uint32_t group);

/* Writes how many row groups are pending in an aggregate, and the first of them, if there is one. Refused with FC_NO_AGGREGATE. */
uint32_t fc_pending(fc_table *table, uint32_t aggregate, uint32_t *groups, uint32_t *first);

/* Asks an aggregate: its answer over the rows as they are, whichever objects are away. The answer stays in the handle until the next
 * fc_ask or fc_recount that is not refused. Writes how many lines it has. Refused with FC_NO_AGGREGATE, FC_BUILDING, FC_NO_MEMORY. */
uint32_t fc_ask(fc_table *table, uint32_t aggregate, size_t *lines);

/* Computes the answer of an aggregate from scratch, whatever is pending in it. Of an object that is away it reads what fc_deliver_copy
 * took. The answer stays in the handle as that of fc_ask does. Refused with FC_NO_AGGREGATE, FC_FAR_FAULT (the content of an object that is
 * away was not delivered; counted), FC_NO_MEMORY, FC_USED_UP. */
uint32_t fc_recount(fc_table *table, uint32_t aggregate, size_t *lines);

/* Writes a line of the answer that stays in the handle. Lines are sorted by key: numbers by value, texts by bytes. `line->key_text` is
 * lent. Refused with FC_NOTHING if there is no such line. */
uint32_t fc_line_at(fc_table *table, size_t index, fc_line *line);

/* Writes the lines of the answer that stays in the handle from index `from` on, as many as there are and as `lines` has room for, and how
 * many these are: none if `from` is past the last. The rest of `lines` stays as it was. Each `key_text` is lent, as by fc_line_at: it is
 * read or copied before the next call with this handle. Refused with FC_NOTHING if no answer stays in the handle. */
uint32_t fc_lines(fc_table *table, size_t from, fc_line *lines, size_t lines_len, size_t *count);

/* Writes the index of the line with a key in the answer that stays in the handle, found by a binary search. If `key` is missing, it is
 * the line of an aggregate without key column. Refused with FC_NOTHING if no line has this key; before that with FC_BAD_ARGUMENT (a kind)
 * and FC_NO_UTF8. */
uint32_t fc_find(fc_table *table, const fc_cell *key, size_t *index);

/* Asks an aggregate for one key: writes the line that fc_ask and fc_find would give, and makes no other. A key column is needed for a
 * number or a text; if `key` is missing, it is the line of an aggregate without key column. The answer that stays in the handle stays.
 * `line->key_text` is the text of `key`, where the caller has it. It costs one look-up, and memory for a copy of a text key until it
 * returns. Refused with FC_NOTHING if the answer has no line with this key; before that with FC_NO_AGGREGATE, FC_BUILDING, FC_NO_MEMORY (a
 * text); before these with FC_BAD_ARGUMENT (a kind) and FC_NO_UTF8. */
uint32_t fc_ask_key(fc_table *table, uint32_t aggregate, const fc_cell *key, fc_line *line);

/* Writes the count and the sum of an aggregate of totals without key. Refused with FC_NOTHING if it is none, or row groups are pending:
 * where fc_ask and fc_ask_key return FC_BUILDING. */
uint32_t fc_plain(fc_table *table, uint32_t aggregate, fc_sum *sum);

/* Writes what an aggregate is. Refused with FC_NO_AGGREGATE. */
uint32_t fc_spec_of(fc_table *table, uint32_t aggregate, fc_aggregate *about);

/* --- Rows and columns ----------------------------------------------------------------------------------------------------------- */

/* Writes the cells of a place, removed or not; texts are lent. Refused with FC_NO_ROW, FC_ABSENT (an object of the place's row group is
 * away), FC_BAD_ARGUMENT (`cells_len` is not the number of columns). */
uint32_t fc_row(fc_table *table, uint32_t place, fc_cell *cells, size_t cells_len);

/* Writes whether the row of a place is alive: inserted, and not removed. Refused with FC_NO_ROW. */
uint32_t fc_is_alive(fc_table *table, uint32_t place, bool *alive);

/* Copies the numbers of the places `from` up to `to` (not included) of a column, whether each has a value (else its number is 0), and
 * whether each place is alive; and records the accesses for fc_proposals. The buffers have a length of `to - from` each. Refused with
 * FC_NO_COLUMN, FC_WRONG_KIND, FC_OUT_OF_RANGE, FC_ABSENT; before these with FC_BAD_ARGUMENT (a length). */
uint32_t fc_numbers(fc_table *table, uint32_t column, uint32_t from, uint32_t to, int64_t *values, size_t values_len, bool *valid,
                    size_t valid_len, bool *alive, size_t alive_len);

/* Lends the text of a place, removed or not, and writes whether it has one. Refused with FC_NO_COLUMN, FC_WRONG_KIND, FC_NO_ROW,
 * FC_ABSENT. */
uint32_t fc_text(fc_table *table, uint32_t column, uint32_t place, fc_bytes *text, bool *valid);

/* Writes how many bytes the texts of the places `from` up to `to` of a column have. Records no access. Refused with FC_NO_COLUMN,
 * FC_WRONG_KIND, FC_OUT_OF_RANGE, FC_ABSENT. */
uint32_t fc_texts_size(fc_table *table, uint32_t column, uint32_t from, uint32_t to, size_t *size);

/* Copies the texts of the places `from` up to `to` of a column, one behind the other, where each begins and the last ends, whether each
 * place has one, and whether it is alive; and records the accesses. `offsets` has a length of `to - from + 1`, `valid` and `alive` of
 * `to - from`. The texts stand at the front of `bytes`, which may be longer. Refused with FC_NO_COLUMN, FC_WRONG_KIND, FC_OUT_OF_RANGE,
 * FC_ABSENT; before these with FC_BAD_ARGUMENT (a length), and behind them with FC_SHORT_BUFFER (the texts do not fit `bytes`: then no
 * access is recorded, and the buffers may have been written in part). */
uint32_t fc_texts(fc_table *table, uint32_t column, uint32_t from, uint32_t to, uint64_t *offsets, size_t offsets_len, uint8_t *bytes,
                  size_t bytes_len, bool *valid, size_t valid_len, bool *alive, size_t alive_len);

/* --- Pins, space, access history ------------------------------------------------------------------------------------------------ */

/* Pins an object once more: it does not go away. Refused with FC_NO_COLUMN, FC_OUT_OF_RANGE, FC_ABSENT, FC_EDITS_USED_UP. */
uint32_t fc_pin(fc_table *table, uint32_t column, uint32_t group);

/* Removes one pin of an object. Refused with FC_NO_COLUMN, FC_OUT_OF_RANGE, FC_NOT_PINNED. */
uint32_t fc_unpin(fc_table *table, uint32_t column, uint32_t group);

/* Compacts a segment of the local region of a kind into an empty one. Refused with FC_OUT_OF_RANGE, FC_REGION_FULL, FC_NO_MEMORY;
 * FC_BAD_ARGUMENT (the kind). */
uint32_t fc_compact(fc_table *table, uint32_t kind, uint32_t segment);

/* Records an access to an object, as fc_numbers does, and marks it as recently used. Refused with FC_NO_COLUMN, FC_OUT_OF_RANGE. */
uint32_t fc_saw(fc_table *table, uint32_t column, uint32_t group);

/* Writes which row groups of a column to fetch next, by the stride of the accesses: at most two, and how many they are. `groups` has a
 * length of 2. Refused with FC_NO_COLUMN, FC_NO_MEMORY, FC_BAD_ARGUMENT (the length). */
uint32_t fc_proposals(fc_table *table, uint32_t column, uint32_t *groups, size_t groups_len, size_t *count);

/* --- Jobs ----------------------------------------------------------------------------------------------------------------------- *
 *
 * An object goes away, comes back, or is built into an aggregate, by a job, in phases between which any other call may come:
 *
 *   evict:   fc_begin_evict or fc_begin_coldest; fc_carry; fc_outgoing (keep these bytes under this number); fc_commit
 *   fetch:   fc_begin_fetch; fc_wanted (find the bytes of this number); fc_deliver; fc_carry; fc_install
 *   offload: fc_begin_offload; fc_wanted for 0, 1, .. until FC_NOTHING, each with fc_deliver; fc_carry; fc_merge
 *
 * fc_outgoing returns FC_NOTHING if the program keeps the content already, since the object was not written since it was fetched: then
 * fc_commit follows at once. If fc_commit, fc_install or fc_merge returns FC_STALE_JOB (also when called before fc_carry), the job is over;
 * after any other refusal it waits, to be ended again. fc_give_up ends a job at any time. If the storage fails, the program calls fc_fault,
 * or just fc_give_up. */

/* Begins to evict an object, and writes the job's number. Refused with FC_NO_COLUMN, FC_OUT_OF_RANGE, FC_ABSENT, FC_EDITS_USED_UP (as many
 * jobs were begun as edits are allowed), FC_NO_MEMORY. */
uint32_t fc_begin_evict(fc_table *table, uint32_t column, uint32_t group, uint64_t *job);

/* Begins to evict the coldest object without a pin, of the kind that has less space. Refused with FC_NOTHING if there is none,
 * FC_EDITS_USED_UP, FC_NO_MEMORY. */
uint32_t fc_begin_coldest(fc_table *table, uint64_t *job);

/* Begins to fetch an object. Refused with FC_NO_COLUMN, FC_OUT_OF_RANGE, FC_STALE_JOB (it is local), FC_EDITS_USED_UP, FC_NO_MEMORY. */
uint32_t fc_begin_fetch(fc_table *table, uint32_t column, uint32_t group, uint64_t *job);

/* Begins to build a row group into an aggregate from the copies of its columns, without fetching them. Refused with FC_NO_AGGREGATE,
 * FC_OUT_OF_RANGE, FC_STALE_JOB (it is built already, or a column that the aggregate needs is dirty), FC_EDITS_USED_UP, FC_NO_MEMORY. */
uint32_t fc_begin_offload(fc_table *table, uint32_t aggregate, uint32_t group, uint64_t *job);

/* Writes what a job is. Refused with FC_STALE_JOB if there is no such job, or it is over. */
uint32_t fc_job_of(fc_table *table, uint64_t job, fc_job *about);

/* Writes the number of the content at an index (0, 1, ..) of those that a begun fetch or offload needs. Refused with FC_NOTHING if it
 * needs no further one, or needs none (any more), and FC_STALE_JOB if there is no such job. */
uint32_t fc_wanted(fc_table *table, uint64_t job, size_t index, uint64_t *number);

/* Takes the content of a number for a job that wants it. The bytes are copied. They must have the length and the digest of what went
 * out under this number; so bytes that were cut or changed, an older content of the object, and that of another object are refused.
 * Refused with FC_STALE_JOB (the job is over, or does not want this number), FC_FAR_FAULT (other bytes; counted), FC_NO_MEMORY, FC_USED_UP.
 *
 * The premise: if these bytes have the digest of what went out under this number, they are those bytes. */
uint32_t fc_deliver(fc_table *table, uint64_t job, uint64_t number, const uint8_t *bytes, size_t bytes_len);

/* Carries a job: gives the content of an eviction its number, or reads what was delivered for a fetch or an offload. Refused with
 * FC_STALE_JOB (the job is over, or was carried already), FC_FAR_FAULT (a content was not delivered; counted), FC_FAR_FULL, FC_NO_MEMORY,
 * FC_USED_UP. */
uint32_t fc_carry(fc_table *table, uint64_t job);

/* Lends the bytes that the program is to keep for a carried eviction, and writes the number under which it will be asked for them.
 * Refused with FC_NOTHING if there is nothing to keep: the content went out before, as that of an object that was not written since, or
 * the job is no carried eviction. FC_STALE_JOB. */
uint32_t fc_outgoing(fc_table *table, uint64_t job, uint64_t *number, fc_bytes *bytes);

/* Ends a carried eviction: the object is away. Call it once the bytes are kept. Refused with FC_STALE_JOB, FC_PINNED. */
uint32_t fc_commit(fc_table *table, uint64_t job);

/* Ends a carried fetch: the object is local. Refused with FC_STALE_JOB, FC_REGION_FULL, FC_NO_MEMORY. */
uint32_t fc_install(fc_table *table, uint64_t job);

/* Ends a carried offload: the row group is built in. Refused with FC_NO_AGGREGATE, FC_STALE_JOB, FC_NO_MEMORY. */
uint32_t fc_merge(fc_table *table, uint64_t job);

/* Gives up a job, whatever its phase. Refused with FC_STALE_JOB if there is no such job. */
uint32_t fc_give_up(fc_table *table, uint64_t job);

/* Counts a fault of the storage. The job waits. Never FC_OK: FC_FAR_FAULT says that it was counted. Else FC_STALE_JOB if there is no such
 * job, or FC_USED_UP. */
uint32_t fc_fault(fc_table *table, uint64_t job);

/* --- Going on with new numbers -------------------------------------------------------------------------------------------------- */

/* Takes the content of an object that is away, for fc_migrate. Refused as fc_deliver is; FC_NO_COLUMN, FC_OUT_OF_RANGE, FC_NOTHING if the
 * object is not away. The same premise. */
uint32_t fc_deliver_copy(fc_table *table, uint32_t column, uint32_t group, const uint8_t *bytes, size_t bytes_len);

/* Goes on with new numbers below `capacity`, from 0 on, and frees what was noted of the old ones. Each object that is away gets a new
 * number (fc_object_of has it), its bytes stay the same; each local object is dirty. All jobs are over. Refused with FC_FAR_FAULT (the
 * content of an object that is away was not delivered by fc_deliver_copy; counted), FC_FAR_FULL, FC_NO_MEMORY, FC_USED_UP. */
uint32_t fc_migrate(fc_table *table, uint64_t capacity);

/* --- Readers -------------------------------------------------------------------------------------------------------------------- */

/* Writes how many places there are, removed rows among them. */
uint32_t fc_places(fc_table *table, uint32_t *places);

/* Writes how many columns there are. */
uint32_t fc_columns(fc_table *table, uint32_t *columns);

/* Writes the kind of a column: FC_INT or FC_TEXT. Refused with FC_NO_COLUMN. */
uint32_t fc_kind_of(fc_table *table, uint32_t column, uint32_t *kind);

/* Writes the limits of the table. */
uint32_t fc_limits_of(fc_table *table, fc_limits *limits);

/* Writes what an object is. Refused with FC_NO_COLUMN, FC_OUT_OF_RANGE. */
uint32_t fc_object_of(fc_table *table, uint32_t column, uint32_t group, fc_object *object);

/* Writes the space of the local region of a kind. Refused with FC_BAD_ARGUMENT (the kind). */
uint32_t fc_space_of(fc_table *table, uint32_t kind, fc_space *space);

/* Writes how many faults were counted since fc_open. */
uint32_t fc_faults(fc_table *table, uint64_t *faults);

/* Writes how many jobs were begun since fc_open, and how many of them are not over. */
uint32_t fc_jobs(fc_table *table, uint64_t *begun, uint64_t *waiting);

#ifdef __cplusplus
}
#endif
#endif
