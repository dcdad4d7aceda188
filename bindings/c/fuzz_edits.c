/* Edits, and the plain table. */
#include "fuzz.h"

/* A text of the letter x alone. */
static uint8_t long_text[LONGEST_TEXT + 1];

plain_cell next_cell(program *it, uint32_t kind) {
    plain_cell cell = {.kind = kind};
    uint8_t what = next_byte(it);
    if (what < 24) cell.kind = FC_MISSING;
    if (what == 24) cell.kind = 3;
    if (what == 25) cell.kind = FC_INT;
    if (what == 26) cell.kind = FC_TEXT;
    cell.number = (int64_t)(what >> 3) - 10;
    if (what == 255) cell.number = INT64_MIN;
    if (what == 254) cell.number = INT64_MAX;
    if (cell.kind == FC_TEXT && what >= 248) {
        static const size_t LONG[] = {25, 64, 300, 1000, 4000, 4095, 4096, 4097};
        cell.len = LONG[what - 248];
    } else if (cell.kind == FC_TEXT) {
        cell.len = what % 8 ? what % 8 : next_byte(it) % (SHORT_TEXT + 1);
        for (size_t i = 0; i < cell.len; i++) cell.text[i] = it->left ? next_byte(it) : 'a';
    }
    return cell;
}

static const uint8_t *text_of(const plain_cell *cell) {
    if (cell->len <= SHORT_TEXT) return cell->text;
    memset(long_text, 'x', sizeof long_text);
    return long_text;
}

/* (A text of no bytes is null where the number is odd.) */
fc_cell raw_cell(const plain_cell *cell) {
    fc_cell raw = {cell->number, fc_no_bytes, cell->kind};
    if (cell->kind == FC_TEXT) raw.text = (fc_bytes){text_of(cell), cell->len};
    if (raw.text.len == 0 && cell->number % 2 != 0) raw.text.at = NULL;
    return raw;
}

bool is_same_cell(const plain_cell *due, const fc_cell *came) {
    if (due->kind != came->kind) return false;
    if (due->kind == FC_INT) return due->number == came->number;
    if (due->kind == FC_MISSING) return true;
    return due->len == came->text.len && memcmp(text_of(due), came->text.at, due->len) == 0;
}

/* How many bytes a character has that begins here; 0 if none begins. */
static size_t character(const uint8_t *at, size_t left) {
    if (at[0] < 0x80) return 1;
    size_t len = at[0] >= 0xf0 ? 4 : at[0] >= 0xe0 ? 3 : 2;
    if (at[0] < 0xc2 || at[0] > 0xf4 || len > left) return 0;
    for (size_t i = 1; i < len; i++)
        if ((at[i] & 0xc0) != 0x80) return 0;
    if (at[0] == 0xe0 && at[1] < 0xa0) return 0;
    if (at[0] == 0xed && at[1] > 0x9f) return 0;
    if (at[0] == 0xf0 && at[1] < 0x90) return 0;
    if (at[0] == 0xf4 && at[1] > 0x8f) return 0;
    return len;
}

bool is_utf8(const uint8_t *text, size_t len) {
    for (size_t at = 0; at < len;) {
        size_t more = character(text + at, len - at);
        if (more == 0) return false;
        at += more;
    }
    return true;
}

/* Why a cell is none: of a kind that there is not, or no UTF-8. */
static uint32_t no_cell(const plain_cell *cell) {
    if (cell->kind > FC_TEXT) return FC_BAD_ARGUMENT;
    return cell->kind == FC_TEXT && !is_utf8(text_of(cell), cell->len) ? FC_NO_UTF8 : FC_OK;
}

static bool is_wrong_kind(const world *w, uint32_t column, const plain_cell *cell) {
    return cell->kind != FC_MISSING && cell->kind != w->kinds[column];
}

uint32_t row_refusal(const world *w, const plain_cell *row, uint32_t len) {
    for (uint32_t column = 0; column < len; column++)
        if (no_cell(&row[column])) return no_cell(&row[column]);
    for (uint32_t column = 0; column < len && column < w->columns; column++)
        if (is_wrong_kind(w, column, &row[column])) return FC_WRONG_KIND;
    if (len != w->columns) return FC_ROW_WIDTH;
    for (uint32_t column = 0; column < len; column++)
        if (row[column].kind == FC_TEXT && row[column].len > LONGEST_TEXT) return FC_TEXT_TOO_LONG;
    return w->places == w->limits.places ? FC_TABLE_FULL : FC_OK;
}

uint32_t place_refusal(const world *w, uint32_t place) {
    if (place >= w->places) return FC_NO_ROW;
    return w->alive[place] ? FC_OK : FC_REMOVED_ROW;
}

uint32_t cell_refusal(const world *w, uint32_t column, uint32_t place, const plain_cell *cell) {
    if (no_cell(cell)) return no_cell(cell);
    if (column >= w->columns) return FC_NO_COLUMN;
    if (is_wrong_kind(w, column, cell)) return FC_WRONG_KIND;
    if (cell->kind == FC_TEXT && cell->len > LONGEST_TEXT) return FC_TEXT_TOO_LONG;
    return place_refusal(w, place);
}

/* An edit that the plain table has nothing against: it may lack objects, space or edits. Returns whether it was done. */
static bool is_done(world *w, uint32_t code, uint32_t due) {
    if (due != FC_OK) {
        HOLDS(seen(w, code, CODES(due, FC_NO_MEMORY)) != FC_OK || !w->is_open);
        return false;
    }
    code = seen(w, code, CODES(FC_ABSENT, FC_CHUNK_FULL, FC_REGION_FULL, FC_EDITS_USED_UP));
    HOLDS(code != FC_EDITS_USED_UP || w->edits == w->limits.edits);
    HOLDS(code != FC_OK || w->edits < w->limits.edits);
    return code == FC_OK;
}

static void keep_row(world *w, const plain_cell *row) {
    memcpy(w->rows[w->places], row, sizeof w->rows[0]);
    w->alive[w->places++] = true;
    w->edits++;
}

static void insert(world *w, program *it) {
    plain_cell row[MOST_COLUMNS + 1] = {0};
    fc_cell raw[MOST_COLUMNS + 1];
    uint32_t len = w->columns, place = NONE;
    uint8_t width = next_byte(it);
    if (width == 255 && len > 0) len--;
    if (width == 254) len++;
    for (uint32_t column = 0; column < len; column++) {
        row[column] = next_cell(it, column < w->columns ? w->kinds[column] : FC_INT);
        raw[column] = raw_cell(&row[column]);
    }
    uint32_t due = row_refusal(w, row, len);
    bool done = is_done(w, fc_insert(&w->table, raw, len, &place), due);
    HOLDS(done ? place == w->places : place == NONE);
    if (done) keep_row(w, row);
}

static void set(world *w, program *it) {
    uint32_t column = next_number(it, w->columns), place = next_number(it, w->places);
    plain_cell cell = next_cell(it, column < w->columns ? w->kinds[column] : FC_INT);
    fc_cell raw = raw_cell(&cell);
    uint32_t due = cell_refusal(w, column, place, &cell);
    if (is_done(w, fc_set(&w->table, column, place, &raw), due)) {
        w->rows[place][column] = cell;
        w->edits++;
    }
}

static void remove_row(world *w, program *it) {
    uint32_t place = next_number(it, w->places);
    if (is_done(w, fc_remove(&w->table, place), place_refusal(w, place))) {
        w->alive[place] = false;
        w->edits++;
    }
}

/* The parts of a column of rows, each in a block of its own length. */
typedef struct {
    int64_t *numbers;
    uint64_t *offsets;
    uint8_t *bytes, *valid;
} parts;

#define ROWS 9

/* (A part without elements is null where the rows are odd.) */
static fc_column gathered(parts *made, plain_cell cells[ROWS][MOST_COLUMNS], uint32_t column, size_t rows, uint32_t kind) {
    size_t bytes = 0;
    for (size_t row = 0; row < rows; row++) bytes += cells[row][column].kind == FC_TEXT ? cells[row][column].len : 0;
    *made = (parts){calloc(rows + 1, 8), calloc(rows + 1, 8), calloc(bytes + 1, 1), calloc(rows / 8 + 1, 1)};
    for (size_t row = 0, at = 0; row < rows; row++) {
        const plain_cell *cell = &cells[row][column];
        if (cell->kind == kind) made->valid[row / 8] |= (uint8_t)(1 << row % 8);
        if (kind == FC_TEXT) {
            memcpy(made->bytes + at, text_of(cell), cell->kind == FC_TEXT ? cell->len : 0);
            at += cell->kind == FC_TEXT ? cell->len : 0;
            made->offsets[row + 1] = at;
        } else {
            made->numbers[row] = cell->kind == FC_INT ? cell->number : 0;
        }
    }
    fc_column column_of = {made->numbers, rows, made->offsets, rows + 1, made->bytes, bytes, made->valid, (rows + 7) / 8, kind};
    bool is_null = rows % 2;
    if (kind == FC_TEXT) column_of.numbers_len = 0;
    if (kind == FC_INT) column_of.offsets_len = column_of.bytes_len = 0;
    if (is_null && column_of.numbers_len == 0) column_of.numbers = NULL;
    if (is_null && column_of.offsets_len == 0) column_of.offsets = NULL;
    if (is_null && column_of.bytes_len == 0) column_of.bytes = NULL;
    return column_of;
}

/* Spoils the shape of columns, so that none of their rows is inserted. */
static bool spoil(program *it, fc_column *columns, uint32_t len, parts *made, size_t rows) {
    uint8_t how = next_byte(it);
    fc_column *one = &columns[how / 16 % (len ? len : 1)];
    if (len == 0 || how % 16 > 5) return false;
    switch (how % 16) {
        case 0: one->kind = 3; break;
        case 1: one->kind = FC_INT + FC_TEXT - one->kind; break;
        case 2: if (rows <= 8) return false; one->valid_len--; break;
        case 3: if (one->kind != FC_INT || rows == 0) return false; one->numbers_len--; break;
        case 4: if (one->kind != FC_TEXT || rows == 0) return false; one->offsets_len--; break;
        default: if (one->kind != FC_TEXT || rows == 0) return false; made[one - columns].offsets[rows / 2 + 1] = UINT64_MAX;
    }
    return true;
}

static size_t due_rows(const world *w, plain_cell cells[ROWS][MOST_COLUMNS], size_t rows, uint32_t *why) {
    size_t row = 0;
    *why = FC_OK;
    for (; row < rows && *why == FC_OK; row++) {
        *why = w->places + row >= w->limits.places ? FC_TABLE_FULL : FC_OK;
        for (uint32_t column = w->columns; column-- > 0;)
            if (no_cell(&cells[row][column]) || cells[row][column].len > LONGEST_TEXT)
                *why = no_cell(&cells[row][column]) ? no_cell(&cells[row][column]) : FC_TEXT_TOO_LONG;
    }
    return *why == FC_OK ? row : row - 1;
}

static void insert_columns(world *w, program *it) {
    static plain_cell cells[ROWS][MOST_COLUMNS];
    fc_column columns[MOST_COLUMNS + 1] = {0};
    parts made[MOST_COLUMNS + 1] = {0};
    size_t rows = next_byte(it) % (ROWS + 1), inserted = 99;
    for (size_t row = 0; row < rows; row++)
        for (uint32_t column = 0; column < w->columns; column++) {
            cells[row][column] = next_cell(it, w->kinds[column]);
            if (cells[row][column].kind != w->kinds[column]) cells[row][column] = (plain_cell){.kind = FC_MISSING};
        }
    for (uint32_t column = 0; column < w->columns; column++)
        columns[column] = gathered(&made[column], cells, column, rows, w->kinds[column]);
    uint32_t why;
    bool is_spoiled = spoil(it, columns, w->columns, made, rows);
    size_t due = due_rows(w, cells, rows, &why);
    uint32_t code = fc_insert_columns(&w->table, columns, w->columns, rows, &inserted);
    code = seen(w, code, CODES(is_spoiled ? FC_BAD_ARGUMENT : why ? why : FC_ABSENT, FC_ABSENT, FC_CHUNK_FULL, FC_REGION_FULL,
                               FC_EDITS_USED_UP, FC_TEXT_TOO_LONG, FC_NO_UTF8));
    if (w->is_open) {
        HOLDS(!is_spoiled || code != FC_OK);
        HOLDS(code != FC_OK || (inserted == rows && due == rows));
        HOLDS(code == FC_OK || inserted == 99 || inserted <= due);
        HOLDS(code != FC_EDITS_USED_UP || w->edits + inserted == w->limits.edits);
        for (size_t row = 0; inserted != 99 && row < inserted; row++) keep_row(w, cells[row]);
    }
    for (uint32_t column = 0; column < w->columns; column++) {
        free(made[column].numbers);
        free(made[column].offsets);
        free(made[column].bytes);
        free(made[column].valid);
    }
}

call *const EDITS[] = {insert, insert, set, set, remove_row, insert_columns};
const uint32_t EDITS_LEN = 6;
