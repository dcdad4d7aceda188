/* Edits: of rows and of cells, one by one and many at once. */
#include "tests.h"

static void edits(void) {
    fc_table table;
    fc_cell cell = int_cell(7), bad = {0, {(const uint8_t *)"\xff", 1}, FC_TEXT}, other = {0, fc_no_bytes, 9};
    fc_cell row[2] = {text_cell("oat"), int_cell(1)};
    uint32_t place = 99;
    bool alive;
    open_bakery(&table);
    OK(fc_insert(&table, row, 2, &place));
    CHECK(place == 3);
    CODE(fc_insert(&table, row, 1, &place), FC_ROW_WIDTH);
    row[0] = bad;
    CODE(fc_insert(&table, row, 2, &place), FC_NO_UTF8);
    row[0] = other;
    CODE(fc_insert(&table, row, 2, &place), FC_BAD_ARGUMENT);
    row[0] = int_cell(1);
    CODE(fc_insert(&table, row, 2, &place), FC_WRONG_KIND);
    OK(fc_set(&table, 1, 0, &cell));
    CODE(fc_set(&table, 2, 0, &cell), FC_NO_COLUMN);
    CODE(fc_set(&table, 0, 0, &cell), FC_WRONG_KIND);
    CODE(fc_set(&table, 1, 9, &cell), FC_NO_ROW);
    CODE(fc_set(&table, 0, 0, &bad), FC_NO_UTF8);
    OK(fc_remove(&table, 1));
    CODE(fc_remove(&table, 1), FC_REMOVED_ROW);
    OK(fc_is_alive(&table, 0, &alive));
    CHECK(alive);
    OK(fc_is_alive(&table, 1, &alive));
    CHECK(!alive);
    CODE(fc_is_alive(&table, 4, &alive), FC_NO_ROW);
    OK(fc_close(&table));
}

static void many_rows(void) {
    fc_table table;
    const int64_t numbers[3] = {5, 0, -2};
    const uint64_t offsets[4] = {0, 3, 3, 7};
    const uint8_t valid[1] = {5};
    fc_column columns[2] = {
        {numbers, 0, offsets, 4, (const uint8_t *)"ryeoats", 7, valid, 0, FC_TEXT},
        {numbers, 3, offsets, 0, (const uint8_t *)"", 0, valid, 1, FC_INT},
    };
    size_t inserted = 99;
    uint32_t total;
    fc_cell row[2];
    open_bakery(&table);
    OK(fc_watch(&table, &TOTAL, &total));
    OK(fc_scan(&table, total, 0));
    OK(fc_insert_columns(&table, columns, 2, 3, &inserted));
    CHECK(inserted == 3);
    CHECK(is_total(&table, total, 5, 13));
    OK(fc_row(&table, 5, row, 2));
    CHECK(row[0].kind == FC_TEXT && row[0].text.len == 4 && memcmp(row[0].text.at, "oats", 4) == 0);
    CHECK(row[1].kind == FC_INT && row[1].number == -2);
    OK(fc_row(&table, 4, row, 2));
    CHECK(row[0].kind == FC_TEXT && row[0].text.len == 0 && row[1].kind == FC_MISSING);
    CODE(fc_row(&table, 6, row, 2), FC_NO_ROW);
    CODE(fc_row(&table, 5, row, 1), FC_BAD_ARGUMENT);
    CODE(fc_insert_columns(&table, columns, 1, 3, &inserted), FC_BAD_ARGUMENT);
    columns[1].numbers_len = 2;
    CODE(fc_insert_columns(&table, columns, 2, 3, &inserted), FC_BAD_ARGUMENT);
    columns[1].numbers_len = 3;
    for (int i = 0; i < 3; i++) OK(fc_insert_columns(&table, columns, 2, 3, &inserted));
    CODE(fc_insert_columns(&table, columns, 2, 3, &inserted), FC_TABLE_FULL);
    CHECK(inserted == 1);
    OK(fc_close(&table));
}

/* Columns of three rows, each of which is wrong in one way: five are for texts, four for numbers. */
static void make_wrong(fc_column wrong[9], fc_column texts, fc_column ints) {
    static const uint64_t descending[4] = {0, 3, 2, 7};
    for (int i = 0; i < 9; i++) wrong[i] = i < 5 ? texts : ints;
    wrong[0].numbers_len = 1;    /* texts with a number */
    wrong[1].offsets_len = 3;    /* two texts */
    wrong[2].offsets = descending;
    wrong[3].bytes_len = 6;      /* the last text ends past the bytes */
    wrong[4].kind = FC_INT;      /* texts as numbers */
    wrong[5].numbers_len = 2;    /* two numbers */
    wrong[6].offsets_len = 1;    /* numbers with an offset */
    wrong[7].kind = FC_MISSING;  /* of no kind that there is */
    wrong[8] = texts;            /* texts for a column of numbers */
}

/* Rows by columns that do not fit, for each reason there is, and a text among them that is no UTF-8: the rows before it are appended. */
static void refused_rows(void) {
    fc_table table;
    const int64_t numbers[3] = {5, 0, -2};
    const uint64_t offsets[4] = {0, 3, 3, 7};
    const uint8_t valid[1] = {255};
    const fc_column texts = {numbers, 0, offsets, 4, (const uint8_t *)"ryeoats", 7, valid, 0, FC_TEXT};
    const fc_column ints = {numbers, 3, offsets, 0, (const uint8_t *)"", 0, valid, 1, FC_INT};
    fc_column columns[2], wrong[9];
    fc_details why;
    size_t inserted = 99;
    uint32_t places;
    make_wrong(wrong, texts, ints);
    open_bakery(&table);
    CODE(fc_remove(&table, 9), FC_NO_ROW);
    for (int i = 0; i < 9; i++) {
        columns[0] = i < 5 ? wrong[i] : texts;
        columns[1] = i < 5 ? ints : wrong[i];
        inserted = 99;
        CODE(fc_insert_columns(&table, columns, 2, 3, &inserted), FC_BAD_ARGUMENT);
        CHECK(inserted == 0);
    }
    columns[0] = texts;
    columns[1] = ints;
    columns[0].bytes = (const uint8_t *)"ryeoat\xff";
    CODE(fc_insert_columns(&table, columns, 2, 3, &inserted), FC_NO_UTF8);
    CHECK(inserted == 2);
    OK(fc_last_refusal(&table, &why));
    CHECK(why.code == FC_NO_ROW);
    OK(fc_places(&table, &places));
    CHECK(places == 5);
    OK(fc_close(&table));
}

/* A mask that has no bit for the last of nine rows. */
static void short_masks(void) {
    fc_table table;
    const int64_t numbers[9] = {0};
    const uint64_t offsets[10] = {0};
    const uint8_t valid[2] = {255, 255};
    const uint32_t places[9] = {0};
    fc_column columns[2] = {
        {numbers, 0, offsets, 10, (const uint8_t *)"", 0, valid, 0, FC_TEXT},
        {numbers, 9, offsets, 0, (const uint8_t *)"", 0, valid, 1, FC_INT},
    };
    size_t count = 99;
    open_bakery(&table);
    CODE(fc_insert_columns(&table, columns, 2, 9, &count), FC_BAD_ARGUMENT);
    CODE(fc_set_column(&table, 1, places, 9, &columns[1], &count), FC_BAD_ARGUMENT);
    CHECK(count == 0);
    columns[1].valid_len = 2;
    OK(fc_insert_columns(&table, columns, 2, 9, &count));
    OK(fc_set_column(&table, 1, places, 9, &columns[1], &count));
    CHECK(count == 9);
    OK(fc_close(&table));
}

/* Whether the cell of column 1 of a place is this number, or missing if there is none. */
static bool has_number(fc_table *table, uint32_t place, const int64_t *number) {
    fc_cell row[2];
    if (fc_row(table, place, row, 2) != FC_OK) return false;
    return number ? row[1].kind == FC_INT && row[1].number == *number : row[1].kind == FC_MISSING;
}

/* Cells that cannot be set, for each reason there is: those before them are set. */
static void refused_cells(fc_table *table, fc_column ints, fc_column texts, const uint32_t places[5]) {
    const uint32_t removed[3] = {0, 1, 2};
    fc_column bad = ints;
    size_t set = 0;
    bad.kind = FC_MISSING;
    CODE(fc_set_column(table, 1, places, 5, &bad, &set), FC_BAD_ARGUMENT);
    texts.bytes_len = 5;
    CODE(fc_set_column(table, 0, places, 3, &texts, &set), FC_BAD_ARGUMENT);
    CODE(fc_set_column(table, 2, places, 5, &ints, &set), FC_NO_COLUMN);
    CODE(fc_set_column(table, 0, places, 5, &ints, &set), FC_WRONG_KIND);
    CHECK(set == 0);
    OK(fc_remove(table, 1));
    ints.numbers_len = 3;
    CODE(fc_set_column(table, 1, removed, 3, &ints, &set), FC_REMOVED_ROW);
    CHECK(set == 1);
    CODE(fc_set_column(table, 1, (const uint32_t[3]){3, 9, 0}, 3, &ints, &set), FC_NO_ROW);
    CHECK(set == 1);
    evict(table, 1, 1);
    CODE(fc_set_column(table, 1, (const uint32_t[3]){0, 2, 4}, 3, &ints, &set), FC_ABSENT);
    CHECK(set == 2 && has_number(table, 2, NULL));
}

static void many_cells(void) {
    fc_table table = {NULL};
    const int64_t numbers[5] = {7, 0, -2, 9, 4};
    const uint64_t offsets[4] = {0, 3, 3, 6};
    const uint8_t valid[1] = {29};
    const uint32_t places[5] = {2, 1, 2, 0, 4};
    fc_column ints = {numbers, 5, offsets, 0, (const uint8_t *)"", 0, valid, 1, FC_INT};
    fc_column texts = {numbers, 0, offsets, 4, (const uint8_t *)"oatr\xff" "e", 6, valid, 0, FC_TEXT};
    uint32_t total;
    size_t set = 99;
    CODE(fc_set_column(&table, 1, places, 5, &ints, &set), FC_CLOSED);
    CHECK(set == 99);
    open_bakery(&table);
    for (int i = 0; i < 3; i++) OK(insert(&table, "oat", i));
    OK(fc_watch(&table, &TOTAL, &total));
    OK(fc_scan(&table, total, 0));
    OK(fc_scan(&table, total, 1));
    OK(fc_set_column(&table, 1, places, 5, &ints, &set));
    CHECK(set == 5);
    CHECK(has_number(&table, 2, &numbers[2]) && has_number(&table, 1, NULL) && has_number(&table, 0, &numbers[3]) &&
          has_number(&table, 4, &numbers[4]));
    CHECK(is_total(&table, total, 5, 9 - 2 + 0 + 4 + 2));
    CODE(fc_set_column(&table, 0, places, 3, &texts, &set), FC_NO_UTF8);
    CHECK(set == 2);
    texts.bytes = (const uint8_t *)"oatrye";
    OK(fc_set_column(&table, 0, places, 3, &texts, &set));
    CHECK(set == 3);
    OK(fc_set_column(&table, 1, NULL, 0, &(fc_column){.kind = FC_INT}, &set));
    CHECK(set == 0);
    CODE(fc_set_column(&table, 1, places, 4, &ints, &set), FC_BAD_ARGUMENT);
    CHECK(set == 0);
    refused_cells(&table, ints, texts, places);
    OK(fc_close(&table));
    CHECK(blocks == 0);
}

/* Cells of places far apart, which are read ahead: also of a place that is not there, and of a row group that is away. */
static void far_cells(void) {
    enum { ROWS = 70000, CELLS = 100, GROUP = 16 };
    fc_table table = {NULL};
    fc_limits limits = LIMITS;
    int64_t numbers[CELLS];
    uint32_t places[CELLS], by_name, total;
    size_t set = 99, first = 0, refused = 0;
    const fc_column ints = {.numbers = numbers, .numbers_len = CELLS, .kind = FC_INT};
    limits.edits = 100000;
    limits.group = GROUP;
    limits.places = ROWS;
    limits.int_size = 20000;
    limits.text_size = 1 << 20;
    OK(fc_open(&table, KINDS, 2, &limits, 1000));
    OK(fc_watch(&table, &BY_NAME, &by_name));
    OK(fc_watch(&table, &TOTAL, &total));
    for (int i = 0; i < ROWS; i++) refused += insert(&table, i % 3 ? "" : "bread", 0) != FC_OK;
    CHECK(refused == 0);
    for (int i = 0; i < CELLS; i++) {
        places[i] = (uint32_t)(i * 38903 % ROWS);
        numbers[i] = i;
    }
    OK(fc_set_column(&table, 1, places, CELLS, &ints, &set));
    CHECK(set == CELLS && is_total(&table, total, ROWS, CELLS * (CELLS - 1) / 2));
    for (int i = 0; i < CELLS; i++) CHECK(has_number(&table, places[i], &numbers[i]));
    evict(&table, 1, places[50] / GROUP);
    while (places[first] / GROUP != places[50] / GROUP) first++;
    CODE(fc_set_column(&table, 1, places, CELLS, &ints, &set), FC_ABSENT);
    CHECK(set == first);
    places[first] = places[0];
    places[first + 1] = UINT32_MAX;
    CODE(fc_set_column(&table, 1, places, CELLS, &ints, &set), FC_NO_ROW);
    CHECK(set == first + 1 && is_total(&table, total, ROWS, CELLS * (CELLS - 1) / 2 + (int64_t)first));
    CODE(fc_set_column(&table, 2, places, CELLS, &ints, &set), FC_NO_COLUMN);
    CODE(fc_set_column(&table, 0, places, CELLS, &ints, &set), FC_WRONG_KIND);
    OK(fc_close(&table));
    CHECK(blocks == 0);
}

void test_edits(void) {
    edits();
    many_rows();
    refused_rows();
    short_masks();
    many_cells();
    far_cells();
}
