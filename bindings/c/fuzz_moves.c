/* Pins, space, jobs and the storage, which may lie. */
#include "fuzz.h"

static uint32_t next_group(const world *w, program *it) {
    uint32_t group = w->limits.group ? w->limits.group : 1;
    return next_number(it, (w->places + group - 1) / group);
}

/* --- Pins and space --------------------------------------------------------------------------------------------------------------- */

static void pin(world *w, program *it) {
    uint32_t column = next_number(it, w->columns), group = next_group(w, it);
    seen(w, fc_pin(&w->table, column, group), CODES(FC_NO_COLUMN, FC_OUT_OF_RANGE, FC_ABSENT));
}

static void unpin(world *w, program *it) {
    uint32_t column = next_number(it, w->columns), group = next_group(w, it);
    seen(w, fc_unpin(&w->table, column, group), CODES(FC_NO_COLUMN, FC_OUT_OF_RANGE, FC_NOT_PINNED));
}

static void compact(world *w, program *it) {
    uint32_t kind = next_number(it, 3), segment = next_number(it, 8);
    uint32_t code = seen(w, fc_compact(&w->table, kind, segment), CODES(FC_OUT_OF_RANGE, FC_REGION_FULL, FC_BAD_ARGUMENT));
    if (w->is_open) HOLDS((code == FC_BAD_ARGUMENT) == (kind != FC_INT && kind != FC_TEXT));
}

static void access(world *w, program *it) {
    uint32_t column = next_number(it, w->columns), group = next_group(w, it), groups[3] = {99, 99, 99};
    size_t count = 99, len = next_byte(it) > 240 ? 1 : 2;
    seen(w, fc_saw(&w->table, column, group), CODES(FC_NO_COLUMN, FC_OUT_OF_RANGE));
    uint32_t code = seen(w, fc_proposals(&w->table, column, groups, len, &count), CODES(FC_NO_COLUMN, FC_BAD_ARGUMENT));
    HOLDS(code != FC_OK || (len == 2 && count <= 2));
    for (size_t i = 0; code == FC_OK && i < count; i++) HOLDS(groups[i] < w->places);
}

static void object_of(world *w, program *it) {
    uint32_t column = next_number(it, w->columns), group = next_group(w, it);
    fc_object object;
    uint32_t code = seen(w, fc_object_of(&w->table, column, group, &object), CODES(FC_NO_COLUMN, FC_OUT_OF_RANGE));
    if (code == FC_OK) HOLDS(object.local || (object.has_copy && !object.dirty && object.copy < w->capacity));
}

static void space_of(world *w, program *it) {
    uint32_t kind = next_number(it, 3);
    fc_space space;
    if (seen(w, fc_space_of(&w->table, kind, &space), CODES(FC_BAD_ARGUMENT)) != FC_OK) return;
    HOLDS(space.used + space.free <= (uint64_t)space.segments * space.size);
    HOLDS(space.segments == (kind == FC_INT ? w->limits.int_segments : w->limits.text_segments));
}

/* --- The storage ------------------------------------------------------------------------------------------------------------------ */

static void keep(world *w, uint64_t number, fc_bytes bytes) {
    HOLDS(number < w->capacity);
    free(w->shelf[number].at);
    w->shelf[number].at = malloc(bytes.len + 1);
    w->shelf[number].len = bytes.len;
    memcpy(w->shelf[number].at, bytes.at, bytes.len);
}

/* Bytes for a number as the program wants them, in a block of their own length: right, spoiled, or those of another number. */
static uint8_t *returned(const world *w, program *it, uint64_t number, size_t *len, bool *is_right) {
    uint8_t how = next_byte(it);
    uint64_t other = how >= 250 ? next_byte(it) % MOST_CONTENTS : number;
    bool is_there = other < MOST_CONTENTS && w->shelf[other].at;
    size_t whole = is_there ? w->shelf[other].len : 0;
    uint8_t *bytes = malloc(whole + 2);
    if (whole) memcpy(bytes, w->shelf[other].at, whole);
    *len = whole;
    if (how >= 200 && how < 220 && whole) bytes[next_byte(it) % whole] ^= (uint8_t)(1 << how % 8);
    if (how >= 220 && how < 235 && whole) *len = whole - 1 - next_byte(it) % whole;
    if (how >= 235 && how < 240) bytes[(*len)++] = next_byte(it);
    if (how >= 240 && how < 250) *len = 0;
    bool is_known = number < MOST_CONTENTS && w->shelf[number].at;
    *is_right = is_known && *len == w->shelf[number].len && memcmp(bytes, w->shelf[number].at, *len) == 0;
    if (*len) return realloc(bytes, *len);
    free(bytes);
    return NULL;
}

static uint32_t deliver_number(world *w, program *it, uint64_t job, uint64_t number, bool is_wanted) {
    size_t len;
    bool is_right;
    uint8_t *bytes = returned(w, it, number, &len, &is_right);
    uint32_t code = seen(w, fc_deliver(&w->table, job, number, bytes, len), CODES(FC_STALE_JOB, FC_FAR_FAULT));
    free(bytes);
    HOLDS(code != FC_OK || (is_wanted && is_right));
    HOLDS(!is_wanted || !w->is_open || code == FC_NO_MEMORY || (code == FC_OK) == is_right);
    return code;
}

/* Whether a job wants a content with this number. */
static bool wants(world *w, uint64_t job, uint64_t number) {
    uint64_t wanted = 0;
    for (size_t index = 0; index < MOST_COLUMNS + 2; index++) {
        if (noted(w, fc_wanted(&w->table, job, index, &wanted)) != FC_OK) return false;
        if (wanted == number) return true;
    }
    return false;
}

static void deliver_copy(world *w, program *it) {
    uint32_t column = next_number(it, w->columns), group = next_group(w, it);
    fc_object object = {.copy = MOST_CONTENTS};
    bool is_away = noted(w, fc_object_of(&w->table, column, group, &object)) == FC_OK && !object.local, is_right;
    size_t len;
    uint8_t *bytes = returned(w, it, is_away ? object.copy : MOST_CONTENTS, &len, &is_right);
    uint32_t code = seen(w, fc_deliver_copy(&w->table, column, group, bytes, len),
                         CODES(FC_NO_COLUMN, FC_OUT_OF_RANGE, FC_NOTHING, FC_FAR_FAULT));
    free(bytes);
    HOLDS(code != FC_OK || (is_away && is_right));
    HOLDS(!is_away || code == FC_NO_MEMORY || (code == FC_OK) == is_right);
}

/* Delivers the copies of all that is away, as they should be. */
static void deliver_copies(world *w) {
    fc_object object;
    for (uint32_t column = 0; column < w->columns; column++)
        for (uint32_t group = 0; noted(w, fc_object_of(&w->table, column, group, &object)) == FC_OK; group++) {
            if (object.local) continue;
            const uint8_t *bytes = w->shelf[object.copy].at;
            seen(w, fc_deliver_copy(&w->table, column, group, bytes, w->shelf[object.copy].len), CODES(FC_NO_MEMORY));
        }
}

/* Goes on with new numbers: the contents of what is away stay, each under its new number. */
static void migrate(world *w, program *it) {
    static uint64_t before[MOST_COLUMNS][MOST_PLACES];
    world old = *w;
    fc_object object;
    uint64_t capacity = next_byte(it) % (MOST_CONTENTS + 1);
    if (next_byte(it) % 4 && w->is_open) deliver_copies(w);
    for (uint32_t column = 0; column < w->columns && w->is_open; column++)
        for (uint32_t group = 0; noted(w, fc_object_of(&w->table, column, group, &object)) == FC_OK; group++)
            before[column][group] = object.local ? MOST_CONTENTS : object.copy;
    if (seen(w, fc_migrate(&w->table, capacity), CODES(FC_FAR_FAULT, FC_FAR_FULL)) != FC_OK) return;
    w->capacity = capacity;
    memset(w->shelf, 0, sizeof w->shelf);
    for (uint32_t column = 0; column < w->columns; column++)
        for (uint32_t group = 0; noted(w, fc_object_of(&w->table, column, group, &object)) == FC_OK; group++) {
            HOLDS(object.local == (before[column][group] == MOST_CONTENTS) && object.dirty == object.local);
            if (object.local) continue;
            uint64_t number = before[column][group];
            keep(w, object.copy, (fc_bytes){old.shelf[number].at, old.shelf[number].len});
        }
    for (int number = 0; number < MOST_CONTENTS; number++) free(old.shelf[number].at);
}

call *const MOVES[] = {pin, unpin, compact, compact, access, object_of, space_of, deliver_copy, migrate};
const uint32_t MOVES_LEN = 9;

/* --- Jobs ------------------------------------------------------------------------------------------------------------------------- */

/* A job that was begun, the newest as a rule, or a number that is none. */
static uint64_t next_job(const world *w, program *it) {
    uint8_t byte = next_byte(it);
    if (byte == 255) return UINT64_MAX;
    if (byte >= 250) return w->begun + (byte - 250u);
    return w->begun ? w->begun - 1 - byte % w->begun % 8 : 0;
}

static uint32_t begun(world *w, uint32_t code, uint64_t job) {
    HOLDS(code != FC_OK || (job == w->begun && w->begun < w->limits.edits));
    HOLDS(code != FC_EDITS_USED_UP || w->begun == w->limits.edits);
    w->begun += code == FC_OK;
    return code;
}

static uint32_t begin_evict(world *w, uint32_t column, uint32_t group) {
    uint64_t job = 999;
    uint32_t code = fc_begin_evict(&w->table, column, group, &job);
    return begun(w, seen(w, code, CODES(FC_NO_COLUMN, FC_OUT_OF_RANGE, FC_ABSENT, FC_EDITS_USED_UP)), job);
}

static uint32_t begin_fetch(world *w, uint32_t column, uint32_t group) {
    uint64_t job = 999;
    uint32_t code = fc_begin_fetch(&w->table, column, group, &job);
    return begun(w, seen(w, code, CODES(FC_NO_COLUMN, FC_OUT_OF_RANGE, FC_STALE_JOB, FC_EDITS_USED_UP)), job);
}

static void carry_job(world *w, uint64_t job) {
    fc_bytes bytes = fc_no_bytes;
    uint64_t number = 999;
    uint32_t code = seen(w, fc_carry(&w->table, job), CODES(FC_STALE_JOB, FC_FAR_FAULT, FC_FAR_FULL));
    if (code == FC_OK && noted(w, fc_outgoing(&w->table, job, &number, &bytes)) == FC_OK) keep(w, number, bytes);
}

static void begin_one(world *w, program *it) {
    uint8_t which = next_byte(it);
    uint64_t job = 999;
    if (which % 4 == 0) {
        uint32_t column = next_number(it, w->columns);
        begin_evict(w, column, next_group(w, it));
    } else if (which % 4 == 1) {
        uint32_t column = next_number(it, w->columns);
        begin_fetch(w, column, next_group(w, it));
    } else if (which % 4 == 2) {
        uint32_t code = seen(w, fc_begin_coldest(&w->table, &job), CODES(FC_NOTHING, FC_EDITS_USED_UP));
        begun(w, code, job);
    } else {
        uint32_t aggregate = next_number(it, 5), group = next_group(w, it);
        uint32_t code = fc_begin_offload(&w->table, aggregate, group, &job);
        begun(w, seen(w, code, CODES(FC_NO_AGGREGATE, FC_OUT_OF_RANGE, FC_STALE_JOB, FC_EDITS_USED_UP)), job);
    }
}

static void job_of(world *w, program *it) {
    fc_job about = {.kind = 99};
    uint64_t number = 999;
    uint64_t job = next_job(w, it);
    uint32_t code = seen(w, fc_job_of(&w->table, job, &about), CODES(FC_STALE_JOB));
    HOLDS(code != FC_OK || (job < w->begun && about.kind <= FC_OFFLOAD && about.column < w->columns));
    size_t index = next_byte(it) > 240 ? SIZE_MAX : 0;
    uint32_t wanted = seen(w, fc_wanted(&w->table, job, index, &number), CODES(FC_NOTHING, FC_STALE_JOB));
    HOLDS(wanted != FC_OK || (index == 0 && number < w->capacity && code == FC_OK && about.kind != FC_EVICT));
}

static void deliver(world *w, program *it) {
    uint64_t job = next_job(w, it), number = 999;
    uint8_t which = next_byte(it);
    if (noted(w, fc_wanted(&w->table, job, which % 2, &number)) != FC_OK) number = next_byte(it);
    if (which > 240) number = which % MOST_CONTENTS;
    deliver_number(w, it, job, number, wants(w, job, number));
}

static void carry(world *w, program *it) { carry_job(w, next_job(w, it)); }

static void outgoing(world *w, program *it) {
    uint64_t number = 999;
    fc_bytes bytes = fc_no_bytes;
    if (seen(w, fc_outgoing(&w->table, next_job(w, it), &number, &bytes), CODES(FC_NOTHING, FC_STALE_JOB)) == FC_OK)
        HOLDS(w->shelf[number].len == bytes.len && memcmp(w->shelf[number].at, bytes.at, bytes.len) == 0);
}

static void end(world *w, program *it) {
    uint64_t job = next_job(w, it);
    switch (next_byte(it) % 5) {
        case 0: seen(w, fc_commit(&w->table, job), CODES(FC_STALE_JOB, FC_PINNED)); break;
        case 1: seen(w, fc_install(&w->table, job), CODES(FC_STALE_JOB, FC_REGION_FULL)); break;
        case 2: seen(w, fc_merge(&w->table, job), CODES(FC_NO_AGGREGATE, FC_STALE_JOB)); break;
        case 3: seen(w, fc_give_up(&w->table, job), CODES(FC_STALE_JOB)); break;
        default: HOLDS(seen(w, fc_fault(&w->table, job), CODES(FC_STALE_JOB, FC_FAR_FAULT)) != FC_OK);
    }
}

/* All phases of an eviction, as they should be. */
static void evict(world *w, program *it) {
    uint32_t column = next_number(it, w->columns);
    if (begin_evict(w, column, next_group(w, it)) != FC_OK) return;
    carry_job(w, w->begun - 1);
    seen(w, fc_commit(&w->table, w->begun - 1), CODES(FC_STALE_JOB, FC_PINNED));
}

/* All phases of a fetch, with contents as the program wants them. */
static void fetch(world *w, program *it) {
    uint32_t column = next_number(it, w->columns), group = next_group(w, it);
    uint64_t number = 999;
    if (begin_fetch(w, column, group) != FC_OK) return;
    uint64_t job = w->begun - 1;
    HOLDS(noted(w, fc_wanted(&w->table, job, 0, &number)) == FC_OK);
    if (deliver_number(w, it, job, number, true) != FC_OK) return;
    uint32_t code = seen(w, fc_carry(&w->table, job), CODES(FC_NO_MEMORY));
    if (code == FC_OK) seen(w, fc_install(&w->table, job), CODES(FC_REGION_FULL));
}

/* All phases of an offload. */
static void offload(world *w, program *it) {
    uint32_t aggregate = next_number(it, 5), group = next_group(w, it);
    uint64_t job = 999, number = 999;
    uint32_t code = fc_begin_offload(&w->table, aggregate, group, &job);
    if (begun(w, seen(w, code, CODES(FC_NO_AGGREGATE, FC_OUT_OF_RANGE, FC_STALE_JOB, FC_EDITS_USED_UP)), job) != FC_OK) return;
    for (size_t index = 0; noted(w, fc_wanted(&w->table, job, index, &number)) == FC_OK; index++) deliver_number(w, it, job, number, true);
    code = seen(w, fc_carry(&w->table, job), CODES(FC_FAR_FAULT));
    if (code == FC_OK) seen(w, fc_merge(&w->table, job), CODES(FC_NO_MEMORY));
}

call *const JOBS[] = {begin_one, begin_one, job_of, deliver, deliver, carry, outgoing, end,
                      end,       evict,     evict,  evict,   fetch,   fetch, offload};
const uint32_t JOBS_LEN = 15;
