/* Aggregates and reads. */
#include "fuzz.h"

/* --- Aggregates ------------------------------------------------------------------------------------------------------------------- */

static void watch(world *w, program *it) {
    static const uint8_t LONG[LONGEST_TEXT + 1] = {'a'};
    fc_test tests[5] = {{0}};
    plain_cell constants[5];
    uint8_t shape = next_byte(it);
    size_t len = shape % 8 < 4 ? shape % 8 % 3 : shape % 8 - 2u;
    for (size_t test = 0; test < len; test++) {
        uint32_t column = next_number(it, w->columns), op = next_byte(it) % 10;
        constants[test] = next_cell(it, op >= FC_TEXT_IS ? FC_TEXT : FC_INT);
        fc_cell raw = raw_cell(&constants[test]);
        bool is_text = constants[test].kind == FC_TEXT;
        fc_bytes text = constants[test].len <= SHORT_TEXT ? raw.text : (fc_bytes){LONG, constants[test].len};
        tests[test] = (fc_test){constants[test].number, is_text ? text : fc_no_bytes, column, op};
    }
    fc_spec spec = {.tests = tests, .tests_len = len, .fold = shape >> 3 & 1, .value = next_number(it, w->columns)};
    if (shape == 255) spec.fold = 7;
    spec.has_key = shape >> 4 & 1;
    spec.key = next_number(it, w->columns);
    uint32_t number = NONE;
    uint32_t code = seen(w, fc_watch(&w->table, &spec, &number),
                         CODES(FC_BAD_SPEC, FC_NO_COLUMN, FC_WRONG_KIND, FC_TOO_MANY_AGGREGATES, FC_BAD_ARGUMENT, FC_NO_UTF8));
    HOLDS((code == FC_OK) == (number != NONE));
    HOLDS(code != FC_OK || (number < 32 && number != w->total && spec.value < w->columns && w->kinds[spec.value] == FC_INT));
}

static void unwatch(world *w, program *it) {
    uint32_t aggregate = next_number(it, 5);
    if (seen(w, fc_unwatch(&w->table, aggregate), CODES(FC_NO_AGGREGATE)) == FC_OK && aggregate == w->total) w->total = NONE;
}

static void scan(world *w, program *it) {
    uint32_t aggregate = next_number(it, 5), group = next_number(it, w->places / (w->limits.group + !w->limits.group) + 1);
    seen(w, fc_scan(&w->table, aggregate, group), CODES(FC_NO_AGGREGATE, FC_OUT_OF_RANGE, FC_STALE_JOB, FC_ABSENT));
}

static void pending(world *w, program *it) {
    uint32_t aggregate = next_number(it, 5), groups = 99, first = 99;
    uint32_t code = seen(w, fc_pending(&w->table, aggregate, &groups, &first), CODES(FC_NO_AGGREGATE));
    HOLDS(code != FC_OK || (groups <= MOST_PLACES && (groups == 0 || first < MOST_PLACES)));
    HOLDS(code != FC_OK || aggregate != w->total || groups == 0);
}

static bool is_before(const fc_line *one, const fc_line *other) {
    if (one->key_kind == FC_INT) return one->key_number < other->key_number;
    size_t len = one->key_text.len < other->key_text.len ? one->key_text.len : other->key_text.len;
    int order = memcmp(one->key_text.at, other->key_text.at, len);
    return order < 0 || (order == 0 && one->key_text.len < other->key_text.len);
}

/* Whether an ask of a line's key alone gives this line, unless memory runs out. (The key is copied: what a line lends is gone with a call.) */
static bool is_asked_alone(world *w, uint32_t aggregate, const fc_line *line) {
    static uint8_t text[LONGEST_TEXT];
    fc_cell key = {line->key_number, fc_no_bytes, line->key_kind};
    fc_line alone;
    if (key.kind == FC_TEXT) key.text = (fc_bytes){memcpy(text, line->key_text.at, line->key_text.len), line->key_text.len};
    uint32_t code = seen(w, fc_ask_key(&w->table, aggregate, &key, &alone), CODES(FC_CLOSED));
    return code == FC_NO_MEMORY ||
           (code == FC_OK && alone.fold == line->fold && alone.key_kind == line->key_kind && alone.count == line->count &&
            alone.sum_low == line->sum_low && alone.sum_high == line->sum_high && alone.min == line->min && alone.max == line->max);
}

/* Looks at each line of an answer by its key alone. (Line by line anew, since the answer stays in the handle.) */
static void ask_keys(world *w, uint32_t aggregate, size_t lines) {
    fc_line line;
    for (size_t index = 0; index < lines; index++) {
        HOLDS(seen(w, fc_line_at(&w->table, index, &line), CODES(FC_CLOSED)) == FC_OK);
        HOLDS(is_asked_alone(w, aggregate, &line));
    }
}

/* A sum over the lines of an answer, for a comparison, and a look at their order. (What a line lends is gone with the next one.) */
static uint64_t sum_of_lines(world *w, size_t lines) {
    fc_line line = {.key_text = fc_no_bytes}, before = line;
    uint8_t text[LONGEST_TEXT];
    uint64_t sum = lines;
    for (size_t index = 0; index < lines; index++) {
        HOLDS(seen(w, fc_line_at(&w->table, index, &line), CODES(FC_CLOSED)) == FC_OK);
        HOLDS(line.key_kind <= FC_TEXT && (line.key_kind != FC_TEXT || is_utf8(line.key_text.at, line.key_text.len)));
        HOLDS(index == 0 || is_before(&before, &line));
        sum = sum * 31 + line.key_text.len + (uint64_t)line.key_number + line.count + line.sum_low + (uint64_t)line.min * 3 +
              (uint64_t)line.max * 5 + (uint64_t)line.sum_high;
        before = line;
        if (line.key_kind == FC_TEXT) before.key_text.at = memcpy(text, line.key_text.at, line.key_text.len);
    }
    HOLDS(seen(w, fc_line_at(&w->table, lines, &line), CODES(FC_NOTHING)) == FC_NOTHING);
    return sum;
}

/* Asks an aggregate and computes it anew: both have the same lines. */
static void ask_twice(world *w, program *it) {
    uint32_t aggregate = next_number(it, 5);
    size_t lines = 99;
    uint32_t asked = seen(w, fc_ask(&w->table, aggregate, &lines), CODES(FC_NO_AGGREGATE, FC_BUILDING));
    if (asked == FC_BUILDING) {
        fc_details details;
        HOLDS(fc_last_refusal(&w->table, &details) == FC_OK && details.code == FC_BUILDING && details.pending > 0);
    }
    uint64_t sum = asked == FC_OK ? sum_of_lines(w, lines) : 0;
    if (asked == FC_OK) ask_keys(w, aggregate, lines);
    uint32_t again = seen(w, fc_recount(&w->table, aggregate, &lines), CODES(FC_NO_AGGREGATE, FC_FAR_FAULT, FC_USED_UP));
    if (again == FC_OK) {
        uint64_t sum_again = sum_of_lines(w, lines);
        HOLDS(asked != FC_OK || sum == sum_again);
    }
}

static void ask_key(world *w, program *it) {
    uint32_t aggregate = next_number(it, 5);
    plain_cell key = next_cell(it, FC_INT + next_byte(it) % 2);
    fc_cell raw = raw_cell(&key);
    fc_line line = {.key_text = fc_no_bytes, .fold = 9};
    uint32_t code = seen(w, fc_ask_key(&w->table, aggregate, &raw, &line),
                         CODES(FC_NO_AGGREGATE, FC_BUILDING, FC_NOTHING, FC_BAD_ARGUMENT, FC_NO_UTF8));
    HOLDS((code == FC_OK) == (line.fold <= FC_EXTREMA));
    HOLDS(code != FC_OK || line.key_kind == raw.kind);
}

static void line_at(world *w, program *it) {
    fc_line line = {.key_text = fc_no_bytes}, same[2] = {line, line};
    size_t index = next_byte(it) > 200 ? SIZE_MAX : 0, count = 99;
    uint32_t code = seen(w, fc_lines(&w->table, index, same, 2, &count), CODES(FC_NOTHING));
    HOLDS((code == FC_OK) == (count <= 2));
    fc_line first = same[0];
    uint32_t one = seen(w, fc_line_at(&w->table, index, &line), CODES(FC_NOTHING));
    HOLDS((one == FC_OK) == (count == 1 || count == 2));
    HOLDS(one != FC_OK || (first.key_kind == line.key_kind && first.fold == line.fold && first.count == line.count && first.min == line.min));
}

static void about_aggregate(world *w, program *it) {
    uint32_t aggregate = next_number(it, 5);
    fc_aggregate about = {.tests = 99};
    fc_sum sum = {7, 7, 7};
    uint32_t code = seen(w, fc_spec_of(&w->table, aggregate, &about), CODES(FC_NO_AGGREGATE));
    HOLDS(code != FC_OK || (about.tests <= 4 && about.fold <= FC_EXTREMA && about.value < w->columns));
    uint32_t plain = seen(w, fc_plain(&w->table, aggregate, &sum), CODES(FC_NOTHING));
    HOLDS(plain != FC_OK || (code == FC_OK && about.fold == FC_TOTALS && !about.has_key));
}

static void last_refusal(world *w, program *it) {
    fc_details details = {99, 99, 99, 99};
    (void)it;
    if (seen(w, fc_last_refusal(&w->table, &details), CODES(FC_CLOSED)) == FC_OK) HOLDS(details.code == w->last);
}

call *const ASKS[] = {watch, unwatch, scan, scan, pending, ask_twice, ask_key, line_at, about_aggregate, last_refusal};
const uint32_t ASKS_LEN = 10;

/* --- Reads ------------------------------------------------------------------------------------------------------------------------ */

/* What is away where a call says so. */
static void check_absent(world *w, uint32_t code) {
    fc_details details;
    fc_object object;
    if (code != FC_ABSENT) return;
    HOLDS(fc_last_refusal(&w->table, &details) == FC_OK && details.code == FC_ABSENT);
    HOLDS(fc_object_of(&w->table, details.column, details.group, &object) == FC_OK && !object.local && object.has_copy);
}

static void row(world *w, program *it) {
    uint32_t place = next_number(it, w->places);
    size_t len = w->columns + (next_byte(it) > 240);
    fc_cell *cells = len ? calloc(len, sizeof *cells) : NULL;
    uint32_t code = seen(w, fc_row(&w->table, place, cells, len), CODES(FC_NO_ROW, FC_ABSENT, FC_BAD_ARGUMENT));
    HOLDS(code != FC_OK || (place < w->places && len == w->columns));
    for (size_t column = 0; code == FC_OK && column < len; column++) HOLDS(is_same_cell(&w->rows[place][column], &cells[column]));
    check_absent(w, code);
    free(cells);
}

static void is_alive(world *w, program *it) {
    uint32_t place = next_number(it, w->places);
    bool alive = false;
    uint32_t code = seen(w, fc_is_alive(&w->table, place, &alive), CODES(FC_NO_ROW));
    if (w->is_open) HOLDS(code == FC_OK ? place < w->places && alive == w->alive[place] : place >= w->places);
}

static void numbers(world *w, program *it) {
    uint32_t column = next_number(it, w->columns), from = next_number(it, w->places + 1), to = next_number(it, w->places + 1);
    size_t len = to >= from && to - from <= MOST_PLACES ? to - from : 3;
    if (next_byte(it) > 240) len++;
    int64_t *values = len ? calloc(len, 8) : NULL;
    bool *valid = len ? calloc(len, 1) : NULL, *alive = len ? calloc(len, 1) : NULL;
    uint32_t code = seen(w, fc_numbers(&w->table, column, from, to, values, len, valid, len, alive, len),
                         CODES(FC_NO_COLUMN, FC_WRONG_KIND, FC_OUT_OF_RANGE, FC_ABSENT, FC_BAD_ARGUMENT));
    HOLDS(code != FC_OK || (to <= w->places && len == to - from));
    for (size_t i = 0; code == FC_OK && i < len; i++) {
        const plain_cell *due = &w->rows[from + i][column];
        HOLDS(valid[i] == (due->kind == FC_INT) && alive[i] == w->alive[from + i]);
        HOLDS(values[i] == (valid[i] ? due->number : 0));
    }
    check_absent(w, code);
    free(values);
    free(valid);
    free(alive);
}

static void one_text(world *w, program *it) {
    uint32_t column = next_number(it, w->columns), place = next_number(it, w->places);
    fc_bytes text = fc_no_bytes;
    bool valid = false;
    uint32_t code = seen(w, fc_text(&w->table, column, place, &text, &valid), CODES(FC_NO_COLUMN, FC_WRONG_KIND, FC_NO_ROW, FC_ABSENT));
    if (code == FC_OK) {
        fc_cell came = {0, text, valid ? FC_TEXT : FC_MISSING};
        HOLDS(is_same_cell(&w->rows[place][column], &came));
    }
    check_absent(w, code);
}

static void check_texts(world *w, uint32_t column, uint32_t from, size_t len, const uint64_t *offsets, uint8_t *bytes, const bool *valid,
                        const bool *alive) {
    for (size_t i = 0; i < len; i++) {
        HOLDS(offsets[i] <= offsets[i + 1]);
        fc_cell came = {0, {bytes ? bytes + offsets[i] : fc_no_bytes.at, offsets[i + 1] - offsets[i]}, valid[i] ? FC_TEXT : FC_MISSING};
        HOLDS(is_same_cell(&w->rows[from + i][column], &came) && alive[i] == w->alive[from + i]);
    }
}

static void texts(world *w, program *it) {
    uint32_t column = next_number(it, w->columns), from = next_number(it, w->places + 1), to = next_number(it, w->places + 1);
    size_t len = to >= from && to - from <= MOST_PLACES ? to - from : 3, size = 5;
    uint8_t how = next_byte(it);
    uint32_t sized = seen(w, fc_texts_size(&w->table, column, from, to, &size),
                          CODES(FC_NO_COLUMN, FC_WRONG_KIND, FC_OUT_OF_RANGE, FC_ABSENT));
    check_absent(w, sized);
    if (how > 240) len++;
    size_t given = how % 16 == 1 && size > 0 ? size - 1 : size;
    uint64_t *offsets = calloc(len + 1, 8);
    uint8_t *bytes = given ? calloc(given, 1) : NULL;
    bool *valid = len ? calloc(len, 1) : NULL, *alive = len ? calloc(len, 1) : NULL;
    uint32_t code = seen(w, fc_texts(&w->table, column, from, to, offsets, len + 1, bytes, given, valid, len, alive, len),
                         CODES(FC_NO_COLUMN, FC_WRONG_KIND, FC_OUT_OF_RANGE, FC_ABSENT, FC_BAD_ARGUMENT, FC_SHORT_BUFFER));
    HOLDS(code != FC_OK || (sized == FC_OK && given == size && to <= w->places && len == to - from));
    HOLDS(code != FC_SHORT_BUFFER || given < size);
    if (code == FC_OK) {
        HOLDS(offsets[0] == 0 && offsets[len] == size);
        check_texts(w, column, from, len, offsets, bytes, valid, alive);
    }
    free(offsets);
    free(bytes);
    free(valid);
    free(alive);
}

static void readers(world *w, program *it) {
    uint32_t places = 99, columns = 99, kind = 99, column = next_number(it, w->columns);
    fc_limits limits;
    bool is_open = seen(w, fc_places(&w->table, &places), CODES(FC_CLOSED)) == FC_OK;
    seen(w, fc_columns(&w->table, &columns), CODES(FC_CLOSED));
    seen(w, fc_limits_of(&w->table, &limits), CODES(FC_CLOSED));
    uint32_t code = seen(w, fc_kind_of(&w->table, column, &kind), CODES(FC_NO_COLUMN));
    if (!is_open) return;
    HOLDS(places == w->places && columns == w->columns && limits.group == w->limits.group && limits.edits == w->limits.edits);
    HOLDS(code == FC_OK ? kind == w->kinds[column] : column >= w->columns);
}

call *const READS[] = {row, row, is_alive, numbers, numbers, one_text, texts, texts, readers};
const uint32_t READS_LEN = 9;

/* --- What is looked at after each call -------------------------------------------------------------------------------------------- */

__extension__ typedef __int128 wide;

void look(world *w) {
    uint32_t places;
    uint64_t faults, begun, waiting;
    fc_sum came;
    HOLDS(fc_places(&w->table, &places) == FC_OK && places == w->places);
    HOLDS(fc_faults(&w->table, &faults) == FC_OK && faults == w->faults);
    HOLDS(fc_jobs(&w->table, &begun, &waiting) == FC_OK && begun == w->begun && waiting <= begun);
    if (w->total == NONE) return;
    wide sum = 0;
    uint64_t count = 0;
    for (uint32_t place = 0; place < w->places; place++)
        if (w->alive[place] && w->rows[place][w->summed].kind == FC_INT) {
            count++;
            sum += w->rows[place][w->summed].number;
        }
    HOLDS(fc_plain(&w->table, w->total, &came) == FC_OK);
    HOLDS(came.count == count && came.sum_low == (uint64_t)sum && came.sum_high == (int64_t)(sum >> 64));
}

void look_at_rows(world *w) {
    fc_cell cells[MOST_COLUMNS];
    for (uint32_t place = 0; place < w->places; place++) {
        uint32_t code = fc_row(&w->table, place, cells, w->columns);
        HOLDS(code == FC_OK || code == FC_ABSENT);
        for (uint32_t column = 0; code == FC_OK && column < w->columns; column++)
            HOLDS(is_same_cell(&w->rows[place][column], &cells[column]));
    }
}
