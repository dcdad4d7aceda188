/* The calls of the library: each looks at the pointers and lengths that it is given, and makes the proved call.
 *
 * Those are the exports of crates/far_c, which tools/library renames from fc_.. to fc_proved_... They take references and slices: never
 * null, aligned, of what is valid, and what they write overlaps nothing else. C can pass anything. So this file refuses what it sees to be
 * otherwise, and passes on a valid address in place of a pointer to nothing. No proof covers it, and it does nothing else.
 *
 * What a call writes was valid before, too. So a bool, and what is written beside another thing, goes into a variable here
 * first; an fc_bytes that a call lends is fc_no_bytes before, and if the call is refused what it was.
 */
#include "arguments.h"

/* Declares a proved call with the type of the public one. */
#define PROVED(call) extern __typeof__(fc_##call) fc_proved_##call __attribute__((visibility("hidden")))

/* --- The table -------------------------------------------------------------------------------------------------------------------- */

PROVED(open);
uint32_t fc_open(fc_table *table, const uint32_t *kinds, size_t kinds_len, const fc_limits *limits, uint64_t capacity) {
    if (!IS_USABLE(table)) return FC_BAD_ARGUMENT;
    if (table->at != NULL) return FC_ALREADY_OPEN;
    if (!IS_USABLE_ARRAY(kinds, kinds_len) || !IS_USABLE(limits)) return FC_BAD_ARGUMENT;
    return fc_proved_open(table, address_of(kinds, kinds_len), kinds_len, limits, capacity);
}

PROVED(close);
uint32_t fc_close(fc_table *table) { return IS_USABLE(table) ? fc_proved_close(table) : FC_CLOSED; }

PROVED(last_refusal);
uint32_t fc_last_refusal(fc_table *table, fc_details *details) {
    return IS_USABLE(table) && IS_USABLE(details) ? fc_proved_last_refusal(table, details) : refusal(table);
}

/* --- Edits ------------------------------------------------------------------------------------------------------------------------ */

PROVED(insert);

/* An insert of what is not usable, or only by a copy. */
static __attribute__((noinline)) uint32_t insert_copy(fc_table *table, const fc_cell *cells, size_t cells_len, uint32_t *place) {
    fc_cell room[MOST_COLUMNS];
    const fc_cell *usable = usable_cells(cells, cells_len, room);
    if (!IS_USABLE(table) || !IS_USABLE(place) || usable == NULL) return refusal(table);
    return fc_proved_insert(table, usable, cells_len, place);
}

/* (The place is written last, when the cells were read. So it goes to the caller at once, which saves 2 ns.) */
uint32_t fc_insert(fc_table *table, const fc_cell *cells, size_t cells_len, uint32_t *place) {
    if (IS_USABLE(table) && IS_USABLE(place) && is_usable_row(cells, cells_len)) return fc_proved_insert(table, cells, cells_len, place);
    return insert_copy(table, cells, cells_len, place);
}

PROVED(insert_columns);
uint32_t fc_insert_columns(fc_table *table, const fc_column *columns, size_t columns_len, size_t rows, size_t *inserted) {
    fc_column taken[MOST_COLUMNS];
    size_t made = 0;
    if (!IS_USABLE(table) || !IS_USABLE(inserted)) return refusal(table);
    const bool is_usable = take_columns(columns, columns_len, taken);
    const uint32_t code = is_usable ? fc_proved_insert_columns(table, taken, columns_len, rows, &made) : refusal(table);
    if (code != FC_CLOSED) *inserted = made;
    return code;
}

PROVED(set);
uint32_t fc_set(fc_table *table, uint32_t column, uint32_t place, const fc_cell *cell) {
    fc_cell room;
    const fc_cell *usable = usable_cell(cell, &room);
    return IS_USABLE(table) && usable != NULL ? fc_proved_set(table, column, place, usable) : refusal(table);
}

PROVED(set_column);
uint32_t fc_set_column(fc_table *table, uint32_t column, const uint32_t *places, size_t places_len, const fc_column *values, size_t *set) {
    fc_column taken;
    size_t made = 0;
    if (!IS_USABLE(table) || !IS_USABLE(set)) return refusal(table);
    const bool is_usable = IS_USABLE_ARRAY(places, places_len) && take_column(values, &taken);
    const uint32_t *at = address_of(places, places_len);
    const uint32_t code = is_usable ? fc_proved_set_column(table, column, at, places_len, &taken, &made) : refusal(table);
    if (code != FC_CLOSED) *set = made;
    return code;
}

PROVED(remove);
uint32_t fc_remove(fc_table *table, uint32_t place) { return IS_USABLE(table) ? fc_proved_remove(table, place) : FC_CLOSED; }

/* --- Aggregates ------------------------------------------------------------------------------------------------------------------- */

PROVED(watch);
uint32_t fc_watch(fc_table *table, const fc_spec *spec, uint32_t *aggregate) {
    fc_test room[MOST_TESTS];
    fc_spec taken;
    uint32_t made = 0;
    if (!IS_USABLE(table) || !IS_USABLE(aggregate) || !take_spec(spec, &taken, room)) return refusal(table);
    const uint32_t code = fc_proved_watch(table, &taken, &made);
    if (code == FC_OK) *aggregate = made;
    return code;
}

PROVED(unwatch);
uint32_t fc_unwatch(fc_table *table, uint32_t aggregate) { return IS_USABLE(table) ? fc_proved_unwatch(table, aggregate) : FC_CLOSED; }

PROVED(scan);
uint32_t fc_scan(fc_table *table, uint32_t aggregate, uint32_t group) {
    return IS_USABLE(table) ? fc_proved_scan(table, aggregate, group) : FC_CLOSED;
}

PROVED(pending);
uint32_t fc_pending(fc_table *table, uint32_t aggregate, uint32_t *groups, uint32_t *first) {
    uint32_t made = 0, next = 0;
    if (!IS_USABLE(table) || !IS_USABLE(groups) || !IS_USABLE(first)) return refusal(table);
    const uint32_t code = fc_proved_pending(table, aggregate, &made, &next);
    if (code == FC_OK) *groups = made;
    if (made > 0) *first = next;
    return code;
}

PROVED(ask);
uint32_t fc_ask(fc_table *table, uint32_t aggregate, size_t *lines) {
    return IS_USABLE(table) && IS_USABLE(lines) ? fc_proved_ask(table, aggregate, lines) : refusal(table);
}

PROVED(recount);
uint32_t fc_recount(fc_table *table, uint32_t aggregate, size_t *lines) {
    return IS_USABLE(table) && IS_USABLE(lines) ? fc_proved_recount(table, aggregate, lines) : refusal(table);
}

PROVED(line_at);
uint32_t fc_line_at(fc_table *table, size_t index, fc_line *line) {
    if (!IS_USABLE(table) || !IS_USABLE(line)) return refusal(table);
    const fc_bytes before = line->key_text;
    line->key_text = fc_no_bytes;
    const uint32_t code = fc_proved_line_at(table, index, line);
    if (code != FC_OK) line->key_text = before;
    return code;
}

PROVED(lines);

/* (Part by part, since what stood there before has to be kept.) */
uint32_t fc_lines(fc_table *table, size_t from, fc_line *lines, size_t lines_len, size_t *count) {
    enum { PART = 16 };
    fc_bytes before[PART];
    size_t made = 0, part = 0;
    if (!IS_USABLE(table) || !IS_USABLE_ARRAY(lines, lines_len) || !IS_USABLE(count)) return refusal(table);
    fc_line *next = address_of(lines, lines_len);
    do {
        const size_t left = lines_len - made, room = left < PART ? left : PART;
        for (size_t i = 0; i < room; i++) {
            before[i] = next[i].key_text;
            next[i].key_text = fc_no_bytes;
        }
        part = 0;
        const uint32_t code = fc_proved_lines(table, from + made, next, room, &part);
        for (size_t i = part; i < room; i++) next[i].key_text = before[i];
        if (code != FC_OK) return code;
        made += part;
        next += part;
    } while (part == PART);
    *count = made;
    return FC_OK;
}

PROVED(find);
uint32_t fc_find(fc_table *table, const fc_cell *key, size_t *index) {
    fc_cell room;
    size_t made = 0;
    const fc_cell *usable = usable_cell(key, &room);
    if (!IS_USABLE(table) || !IS_USABLE(index) || usable == NULL) return refusal(table);
    const uint32_t code = fc_proved_find(table, usable, &made);
    if (code == FC_OK) *index = made;
    return code;
}

PROVED(ask_key);
uint32_t fc_ask_key(fc_table *table, uint32_t aggregate, const fc_cell *key, fc_line *line) {
    fc_cell room;
    const fc_cell *usable = usable_cell(key, &room);
    if (!IS_USABLE(table) || !IS_USABLE(line) || usable == NULL) return refusal(table);
    if (!ARE_APART(line, 1, key, 1) || !ARE_APART(line, 1, usable->text.at, usable->text.len)) return refusal(table);
    const fc_bytes before = line->key_text;
    line->key_text = fc_no_bytes;
    const uint32_t code = fc_proved_ask_key(table, aggregate, usable, line);
    if (code != FC_OK) line->key_text = before;
    return code;
}

PROVED(plain);
uint32_t fc_plain(fc_table *table, uint32_t aggregate, fc_sum *sum) {
    return IS_USABLE(table) && IS_USABLE(sum) ? fc_proved_plain(table, aggregate, sum) : refusal(table);
}

PROVED(spec_of);
uint32_t fc_spec_of(fc_table *table, uint32_t aggregate, fc_aggregate *about) {
    fc_aggregate made = {0};
    if (!IS_USABLE(table) || !IS_USABLE(about)) return refusal(table);
    const uint32_t code = fc_proved_spec_of(table, aggregate, &made);
    if (code == FC_OK) *about = made;
    return code;
}

/* --- Rows and columns ------------------------------------------------------------------------------------------------------------- */

PROVED(row);
uint32_t fc_row(fc_table *table, uint32_t place, fc_cell *cells, size_t cells_len) {
    fc_bytes before[MOST_COLUMNS];
    if (!IS_USABLE(table) || cells_len > MOST_COLUMNS || !IS_USABLE_ARRAY(cells, cells_len)) return refusal(table);
    for (size_t i = 0; i < cells_len; i++) {
        before[i] = cells[i].text;
        cells[i].text = fc_no_bytes;
    }
    const uint32_t code = fc_proved_row(table, place, address_of(cells, cells_len), cells_len);
    for (size_t i = 0; code != FC_OK && i < cells_len; i++) cells[i].text = before[i];
    return code;
}

PROVED(is_alive);
uint32_t fc_is_alive(fc_table *table, uint32_t place, bool *alive) {
    bool made = false;
    if (!IS_USABLE(table) || !IS_USABLE(alive)) return refusal(table);
    const uint32_t code = fc_proved_is_alive(table, place, &made);
    if (code == FC_OK) *alive = made;
    return code;
}

PROVED(numbers);
uint32_t fc_numbers(fc_table *table, uint32_t column, uint32_t from, uint32_t to, int64_t *values, size_t values_len, bool *valid,
                    size_t valid_len, bool *alive, size_t alive_len) {
    if (!IS_USABLE(table) || !IS_USABLE_ARRAY(values, values_len) || !IS_USABLE_ARRAY(valid, valid_len) ||
        !IS_USABLE_ARRAY(alive, alive_len))
        return refusal(table);
    if (!ARE_APART(values, values_len, valid, valid_len) || !ARE_APART(values, values_len, alive, alive_len) ||
        !ARE_APART(valid, valid_len, alive, alive_len))
        return refusal(table);
    return fc_proved_numbers(table, column, from, to, address_of(values, values_len), values_len, address_of(valid, valid_len),
                             valid_len, address_of(alive, alive_len), alive_len);
}

PROVED(text);
uint32_t fc_text(fc_table *table, uint32_t column, uint32_t place, fc_bytes *text, bool *valid) {
    bool made = false;
    fc_bytes lent = fc_no_bytes;
    if (!IS_USABLE(table) || !IS_USABLE(text) || !IS_USABLE(valid)) return refusal(table);
    const uint32_t code = fc_proved_text(table, column, place, &lent, &made);
    if (code != FC_OK) return code;
    *text = lent;
    *valid = made;
    return FC_OK;
}

PROVED(texts_size);
uint32_t fc_texts_size(fc_table *table, uint32_t column, uint32_t from, uint32_t to, size_t *size) {
    return IS_USABLE(table) && IS_USABLE(size) ? fc_proved_texts_size(table, column, from, to, size) : refusal(table);
}

PROVED(texts);
uint32_t fc_texts(fc_table *table, uint32_t column, uint32_t from, uint32_t to, uint64_t *offsets, size_t offsets_len, uint8_t *bytes,
                  size_t bytes_len, bool *valid, size_t valid_len, bool *alive, size_t alive_len) {
    if (!IS_USABLE(table) || !IS_USABLE_ARRAY(offsets, offsets_len) || !IS_USABLE_ARRAY(bytes, bytes_len) ||
        !IS_USABLE_ARRAY(valid, valid_len) || !IS_USABLE_ARRAY(alive, alive_len))
        return refusal(table);
    if (!ARE_APART(offsets, offsets_len, bytes, bytes_len) || !ARE_APART(offsets, offsets_len, valid, valid_len) ||
        !ARE_APART(offsets, offsets_len, alive, alive_len) || !ARE_APART(bytes, bytes_len, valid, valid_len) ||
        !ARE_APART(bytes, bytes_len, alive, alive_len) || !ARE_APART(valid, valid_len, alive, alive_len))
        return refusal(table);
    return fc_proved_texts(table, column, from, to, address_of(offsets, offsets_len), offsets_len, address_of(bytes, bytes_len),
                           bytes_len, address_of(valid, valid_len), valid_len, address_of(alive, alive_len), alive_len);
}

/* --- Pins, space, access history -------------------------------------------------------------------------------------------------- */

PROVED(pin);
uint32_t fc_pin(fc_table *table, uint32_t column, uint32_t group) {
    return IS_USABLE(table) ? fc_proved_pin(table, column, group) : FC_CLOSED;
}

PROVED(unpin);
uint32_t fc_unpin(fc_table *table, uint32_t column, uint32_t group) {
    return IS_USABLE(table) ? fc_proved_unpin(table, column, group) : FC_CLOSED;
}

PROVED(compact);
uint32_t fc_compact(fc_table *table, uint32_t kind, uint32_t segment) {
    return IS_USABLE(table) ? fc_proved_compact(table, kind, segment) : FC_CLOSED;
}

PROVED(saw);
uint32_t fc_saw(fc_table *table, uint32_t column, uint32_t group) {
    return IS_USABLE(table) ? fc_proved_saw(table, column, group) : FC_CLOSED;
}

PROVED(proposals);
uint32_t fc_proposals(fc_table *table, uint32_t column, uint32_t *groups, size_t groups_len, size_t *count) {
    size_t made = 0;
    if (!IS_USABLE(table) || !IS_USABLE_ARRAY(groups, groups_len) || !IS_USABLE(count)) return refusal(table);
    const uint32_t code = fc_proved_proposals(table, column, address_of(groups, groups_len), groups_len, &made);
    if (code == FC_OK) *count = made;
    return code;
}

/* --- Jobs ------------------------------------------------------------------------------------------------------------------------- */

PROVED(begin_evict);
uint32_t fc_begin_evict(fc_table *table, uint32_t column, uint32_t group, uint64_t *job) {
    return IS_USABLE(table) && IS_USABLE(job) ? fc_proved_begin_evict(table, column, group, job) : refusal(table);
}

PROVED(begin_coldest);
uint32_t fc_begin_coldest(fc_table *table, uint64_t *job) {
    return IS_USABLE(table) && IS_USABLE(job) ? fc_proved_begin_coldest(table, job) : refusal(table);
}

PROVED(begin_fetch);
uint32_t fc_begin_fetch(fc_table *table, uint32_t column, uint32_t group, uint64_t *job) {
    return IS_USABLE(table) && IS_USABLE(job) ? fc_proved_begin_fetch(table, column, group, job) : refusal(table);
}

PROVED(begin_offload);
uint32_t fc_begin_offload(fc_table *table, uint32_t aggregate, uint32_t group, uint64_t *job) {
    return IS_USABLE(table) && IS_USABLE(job) ? fc_proved_begin_offload(table, aggregate, group, job) : refusal(table);
}

PROVED(job_of);
uint32_t fc_job_of(fc_table *table, uint64_t job, fc_job *about) {
    fc_job made = {0};
    if (!IS_USABLE(table) || !IS_USABLE(about)) return refusal(table);
    const uint32_t code = fc_proved_job_of(table, job, &made);
    if (code == FC_OK) *about = made;
    return code;
}

PROVED(wanted);
uint32_t fc_wanted(fc_table *table, uint64_t job, size_t index, uint64_t *number) {
    return IS_USABLE(table) && IS_USABLE(number) ? fc_proved_wanted(table, job, index, number) : refusal(table);
}

PROVED(deliver);
uint32_t fc_deliver(fc_table *table, uint64_t job, uint64_t number, const uint8_t *bytes, size_t bytes_len) {
    if (!IS_USABLE(table) || !IS_USABLE_ARRAY(bytes, bytes_len)) return refusal(table);
    return fc_proved_deliver(table, job, number, address_of(bytes, bytes_len), bytes_len);
}

PROVED(carry);
uint32_t fc_carry(fc_table *table, uint64_t job) { return IS_USABLE(table) ? fc_proved_carry(table, job) : FC_CLOSED; }

PROVED(outgoing);
uint32_t fc_outgoing(fc_table *table, uint64_t job, uint64_t *number, fc_bytes *bytes) {
    uint64_t made = 0;
    fc_bytes lent = fc_no_bytes;
    if (!IS_USABLE(table) || !IS_USABLE(number) || !IS_USABLE(bytes)) return refusal(table);
    const uint32_t code = fc_proved_outgoing(table, job, &made, &lent);
    if (code != FC_OK) return code;
    *number = made;
    *bytes = lent;
    return FC_OK;
}

PROVED(commit);
uint32_t fc_commit(fc_table *table, uint64_t job) { return IS_USABLE(table) ? fc_proved_commit(table, job) : FC_CLOSED; }

PROVED(install);
uint32_t fc_install(fc_table *table, uint64_t job) { return IS_USABLE(table) ? fc_proved_install(table, job) : FC_CLOSED; }

PROVED(merge);
uint32_t fc_merge(fc_table *table, uint64_t job) { return IS_USABLE(table) ? fc_proved_merge(table, job) : FC_CLOSED; }

PROVED(give_up);
uint32_t fc_give_up(fc_table *table, uint64_t job) { return IS_USABLE(table) ? fc_proved_give_up(table, job) : FC_CLOSED; }

PROVED(fault);
uint32_t fc_fault(fc_table *table, uint64_t job) { return IS_USABLE(table) ? fc_proved_fault(table, job) : FC_CLOSED; }

/* --- Going on with new numbers ---------------------------------------------------------------------------------------------------- */

PROVED(deliver_copy);
uint32_t fc_deliver_copy(fc_table *table, uint32_t column, uint32_t group, const uint8_t *bytes, size_t bytes_len) {
    if (!IS_USABLE(table) || !IS_USABLE_ARRAY(bytes, bytes_len)) return refusal(table);
    return fc_proved_deliver_copy(table, column, group, address_of(bytes, bytes_len), bytes_len);
}

PROVED(migrate);
uint32_t fc_migrate(fc_table *table, uint64_t capacity) { return IS_USABLE(table) ? fc_proved_migrate(table, capacity) : FC_CLOSED; }

/* --- Readers ---------------------------------------------------------------------------------------------------------------------- */

PROVED(places);
uint32_t fc_places(fc_table *table, uint32_t *places) {
    return IS_USABLE(table) && IS_USABLE(places) ? fc_proved_places(table, places) : refusal(table);
}

PROVED(columns);
uint32_t fc_columns(fc_table *table, uint32_t *columns) {
    return IS_USABLE(table) && IS_USABLE(columns) ? fc_proved_columns(table, columns) : refusal(table);
}

PROVED(kind_of);
uint32_t fc_kind_of(fc_table *table, uint32_t column, uint32_t *kind) {
    return IS_USABLE(table) && IS_USABLE(kind) ? fc_proved_kind_of(table, column, kind) : refusal(table);
}

PROVED(limits_of);
uint32_t fc_limits_of(fc_table *table, fc_limits *limits) {
    return IS_USABLE(table) && IS_USABLE(limits) ? fc_proved_limits_of(table, limits) : refusal(table);
}

PROVED(object_of);
uint32_t fc_object_of(fc_table *table, uint32_t column, uint32_t group, fc_object *object) {
    fc_object made = {0};
    if (!IS_USABLE(table) || !IS_USABLE(object)) return refusal(table);
    const uint32_t code = fc_proved_object_of(table, column, group, &made);
    if (code == FC_OK) *object = made;
    return code;
}

PROVED(space_of);
uint32_t fc_space_of(fc_table *table, uint32_t kind, fc_space *space) {
    return IS_USABLE(table) && IS_USABLE(space) ? fc_proved_space_of(table, kind, space) : refusal(table);
}

PROVED(faults);
uint32_t fc_faults(fc_table *table, uint64_t *faults) {
    return IS_USABLE(table) && IS_USABLE(faults) ? fc_proved_faults(table, faults) : refusal(table);
}

PROVED(jobs);
uint32_t fc_jobs(fc_table *table, uint64_t *begun, uint64_t *waiting) {
    uint64_t made = 0, left = 0;
    if (!IS_USABLE(table) || !IS_USABLE(begun) || !IS_USABLE(waiting)) return refusal(table);
    const uint32_t code = fc_proved_jobs(table, &made, &left);
    if (code != FC_OK) return code;
    *begun = made;
    *waiting = left;
    return FC_OK;
}
