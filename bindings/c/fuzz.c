/* A fuzzer of the calls: a string of bytes is a program of calls, over a plain table that says what they should do. Compiled with
 * libFuzzer it is driven by that (tests/fuzz); with -DREPLAY it has a main() that runs one input, or those of fuzz.corpus (tests/c-tests).
 *
 * The first byte says which allocation is refused, if one is. Two bytes say what the table is. Then each byte is a call, with its arguments
 * after it. The heap is this file's own: it refuses one allocation, and looks whether bytes beside a block were written. */
#include "fuzz.h"

/* The number of the input that runs, if it was drawn. */
uint64_t input;

/* --- The program ------------------------------------------------------------------------------------------------------------------ */

uint8_t next_byte(program *it) {
    if (it->left == 0) return 0;
    it->left--;
    return *it->at++;
}

uint32_t next_number(program *it, uint32_t end) {
    static const uint32_t WILD[] = {UINT32_MAX, 1u << 31, 65536, 4096, 33, 1u << 24};
    uint8_t byte = next_byte(it);
    if (byte >= 250) return WILD[byte - 250];
    if (byte >= 244) return end + (byte - 244u);
    return end ? byte % end : byte;
}

/* --- The heap --------------------------------------------------------------------------------------------------------------------- */

typedef struct {
    bool is_made;
    void *block;
} tried;

tried rattle_alloc(size_t size, size_t align);
tried rattle_realloc(void *block, size_t kept, size_t size, size_t align);
void rattle_dealloc(void *block);

/* A block is between two guards: before it its length and a mark, after it a mark. */
#define GUARD 16
static const uint64_t MARK = 0x5afe5afe5afe5afe;
static unsigned long allocations, refused_one;
static bool refused;
static long blocks;
static char nowhere;

void begin_heap(unsigned long one) {
    allocations = 0;
    refused_one = one;
    refused = false;
    HOLDS(blocks == 0);
}

bool was_refused(void) {
    bool was = refused;
    refused = false;
    return was;
}

void end_heap(void) { HOLDS(blocks == 0); }

static bool refuses(void) {
    bool is_the_one = ++allocations == refused_one;
    refused |= is_the_one;
    return is_the_one;
}

static tried guarded(uint8_t *base, size_t size) {
    if (base == NULL) FAIL("the fuzzer itself has no memory");
    memcpy(base, &size, sizeof size);
    memcpy(base + 8, &MARK, 8);
    memcpy(base + GUARD + size, &MARK, 8);
    return (tried){true, base + GUARD};
}

static uint8_t *checked(void *block) {
    uint8_t *base = (uint8_t *)block - GUARD;
    size_t size;
    memcpy(&size, base, sizeof size);
    HOLDS(memcmp(base + 8, &MARK, 8) == 0);
    HOLDS(memcmp(base + GUARD + size, &MARK, 8) == 0);
    return base;
}

tried rattle_alloc(size_t size, size_t align) {
    HOLDS(align <= 16);
    if (refuses()) return (tried){false, &nowhere};
    blocks++;
    return guarded(malloc(size + GUARD + 8), size);
}

tried rattle_realloc(void *block, size_t kept, size_t size, size_t align) {
    (void)kept;
    HOLDS(align <= 16);
    uint8_t *base = checked(block);
    if (refuses()) return (tried){false, &nowhere};
    return guarded(realloc(base, size + GUARD + 8), size);
}

void rattle_dealloc(void *block) {
    blocks--;
    free(checked(block));
}

/* --- What calls return ------------------------------------------------------------------------------------------------------------ */

/* Which codes came of which calls, and after which: libFuzzer takes these counters for code that was reached. */
#ifdef REPLAY
static uint8_t reached[8192];
#else
__attribute__((section("__libfuzzer_extra_counters"))) static uint8_t reached[8192];
#endif
static uint32_t current_call, trail;

uint32_t noted(world *w, uint32_t code) {
    if (code != FC_OK && code <= 24) w->last = code;
    return code;
}

uint32_t seen(world *w, uint32_t code, const uint32_t *allowed) {
    uint32_t here = current_call * 32 + code % 32;
    reached[here % 4096] |= 1;
    reached[4096 + (here * 31 + trail) % 4096] |= 1;
    trail = here;
    bool had_memory = !was_refused();
    HOLDS((code == FC_CLOSED) == !w->is_open);
    if (code == FC_OK || code == FC_CLOSED) return code;
    noted(w, code);
    if (code == FC_FAR_FAULT) w->faults++;
    if (code == FC_NO_MEMORY) {
        HOLDS(!had_memory);
        return code;
    }
    for (; *allowed; allowed++)
        if (*allowed == code) return code;
    fprintf(stderr, "fuzz: call %u returned %u\n", current_call, code);
    FAIL("a call returned what it never should");
}

/* --- The table -------------------------------------------------------------------------------------------------------------------- */

static fc_limits next_limits(program *it) {
    static const uint32_t SIZES[] = {64, 64, 100, 200, 4096, 9000};
    fc_limits limits = {.edits = 1000, .group = 1 + next_byte(it) % 6, .places = 1 + next_byte(it) % MOST_PLACES};
    limits.int_segments = 1 + next_byte(it) % 12;
    limits.int_size = limits.group * (1 + next_byte(it) % 3u) + next_byte(it) % 3u;
    limits.text_segments = 1 + next_byte(it) % 8;
    limits.text_size = SIZES[next_byte(it) % 6];
    uint8_t odd = next_byte(it);
    if (odd < 24) limits.edits = odd;
    if (odd == 24) limits.group = 0;
    if (odd == 25) limits.places = 0;
    if (odd == 26) limits.places = (1u << 24) + 1;
    if (odd == 27) limits.int_segments = 1025;
    if (odd == 28) limits.int_size = limits.group - 1;
    if (odd == 29) limits.text_segments = 0;
    if (odd == 30) limits.text_size = 63;
    if (odd == 31) limits.edits = (1ull << 40) + 1;
    return limits;
}

static bool is_schema(const fc_limits *limits, uint32_t columns) {
    bool counts = limits->edits >= 1 && limits->edits <= 1ull << 40 && limits->group >= 1 && limits->group <= 65536;
    bool places = limits->places >= 1 && limits->places <= 1u << 24;
    bool ints = limits->int_segments >= 1 && limits->int_segments <= 1024;
    bool int_size = limits->int_size >= limits->group && limits->int_size <= 1u << 20;
    bool texts = limits->text_segments >= 1 && limits->text_segments <= 1024;
    bool text_size = limits->text_size >= 64 && limits->text_size <= 1u << 24;
    return columns >= 1 && columns <= 16 && counts && places && ints && int_size && texts && text_size;
}

/* Registers the aggregate that is looked at after each call, if there is a column of numbers. */
static void watch_total(world *w) {
    w->total = NONE;
    for (w->summed = 0; w->summed < w->columns && w->kinds[w->summed] != FC_INT; w->summed++)
        ;
    if (w->summed == w->columns) return;
    fc_spec spec = {.fold = FC_TOTALS, .value = w->summed};
    uint32_t number = 99;
    if (seen(w, fc_watch(&w->table, &spec, &number), CODES(FC_NO_MEMORY)) == FC_OK) w->total = number;
}

void open_table(world *w, program *it) {
    if (w->is_open) {
        fc_limits limits = w->limits;
        seen(w, fc_open(&w->table, w->kinds, w->columns, &limits, 9), CODES(FC_ALREADY_OPEN));
        return;
    }
    memset(w, 0, sizeof *w);
    uint8_t shape = next_byte(it);
    bool has_odd_kind = false;
    w->columns = shape % (MOST_COLUMNS + 1);
    for (uint32_t column = 0; column < w->columns; column++) {
        w->kinds[column] = FC_INT + (shape >> (2 + column) & 1);
        if (shape == 255 && column == 1) w->kinds[column] = 3;
        has_odd_kind |= w->kinds[column] > FC_TEXT;
    }
    w->limits = next_limits(it);
    w->capacity = next_byte(it) % (MOST_CONTENTS + 1);
    uint32_t code = fc_open(&w->table, w->kinds, w->columns, &w->limits, w->capacity);
    HOLDS(code != FC_OK || (is_schema(&w->limits, w->columns) && !has_odd_kind));
    w->is_open = code == FC_OK;
    if (code != FC_OK) {
        HOLDS(code == FC_BAD_SCHEMA || code == FC_BAD_ARGUMENT || (code == FC_NO_MEMORY && was_refused()));
        HOLDS(code == FC_NO_MEMORY || !is_schema(&w->limits, w->columns) || has_odd_kind);
        return;
    }
    watch_total(w);
}

void close_table(world *w, program *it) {
    (void)it;
    seen(w, fc_close(&w->table), CODES(FC_CLOSED));
    w->is_open = false;
    HOLDS(w->table.at == NULL);
    for (int number = 0; number < MOST_CONTENTS; number++) {
        free(w->shelf[number].at);
        w->shelf[number].at = NULL;
    }
}

/* --- One input -------------------------------------------------------------------------------------------------------------------- */

static void one_call(world *w, program *it) {
    static const struct {
        call *const *calls;
        const uint32_t *len;
        uint32_t parts;
    } KINDS[] = {{EDITS, &EDITS_LEN, 12}, {ASKS, &ASKS_LEN, 9}, {READS, &READS_LEN, 9}, {MOVES, &MOVES_LEN, 9}, {JOBS, &JOBS_LEN, 23}};
    uint32_t which = next_byte(it);
    if (which == 255) {
        current_call = 0;
        close_table(w, it);
        return;
    }
    if (which == 254) {
        current_call = 1;
        open_table(w, it);
        return;
    }
    if (which == 253) {
        call_with_null(w, it);
        return;
    }
    uint32_t part = which % 62, call = which / 62;
    for (uint32_t kind = 0; kind < 5; kind++) {
        if (part < KINDS[kind].parts) {
            call = (call * KINDS[kind].parts + part) % *KINDS[kind].len;
            current_call = 2 + 24 * kind + call;
            KINDS[kind].calls[call](w, it);
            return;
        }
        part -= KINDS[kind].parts;
    }
}

int LLVMFuzzerTestOneInput(const uint8_t *data, size_t size);

int LLVMFuzzerTestOneInput(const uint8_t *data, size_t size) {
    static world w;
    program it = {data, size};
    memset(&w, 0, sizeof w);
    trail = 0;
    current_call = 1;
    uint8_t refused_allocation = next_byte(&it);
    /* (half of the programs have all the memory that they ask for) */
    begin_heap(refused_allocation < 128 ? 0 : (refused_allocation - 127ul) * (1 + next_byte(&it) % 4ul));
    open_table(&w, &it);
    while (it.left > 0) {
        one_call(&w, &it);
        if (w.is_open) look(&w);
    }
    current_call = 1;
    if (w.is_open) {
        look_at_rows(&w);
        close_table(&w, &it);
    }
    end_heap();
    return 0;
}

#ifdef REPLAY
/* The longest input that is drawn. */
#define MOST_RANDOM 1200

/* How many pairs of a call and what it returned, or of two such pairs, were reached. */
static unsigned reached_in_all(void) {
    unsigned count = 0;
    for (size_t i = 0; i < sizeof reached; i++) count += reached[i];
    return count;
}

/* Runs an input at the end of a block of its own, so that a read past it is seen. */
static void run(const uint8_t *bytes, size_t size) {
    uint8_t *data = malloc(size ? size : 1);
    if (data == NULL) FAIL("the fuzzer itself has no memory");
    memcpy(data, bytes, size);
    LLVMFuzzerTestOneInput(data, size);
    free(data);
}

/* Runs each `step`-th of the inputs of a file, each after its length, of two bytes, the lower first. */
static unsigned long run_packed(FILE *file, unsigned long step) {
    static uint8_t bytes[1 << 16];
    uint8_t len[2];
    unsigned long count = 0, ran = 0;
    while (fread(len, 1, 2, file) == 2) {
        size_t size = len[0] + 256u * len[1];
        if (fread(bytes, 1, size, file) != size) FAIL("the last input is cut");
        if (count++ % step == 0) {
            run(bytes, size);
            ran++;
        }
    }
    return ran;
}

/* An input that is drawn from a seed. Returns its length. */
static size_t drawn(uint8_t *bytes, uint64_t seed) {
    uint64_t state = seed * 0x9e3779b97f4a7c15 + 1;
    size_t size = 0;
    for (size_t most = 40 + seed % (MOST_RANDOM - 40); size < most; size++) {
        state ^= state << 13;
        state ^= state >> 7;
        state ^= state << 17;
        /* (wild numbers and texts are rare in a program that goes far) */
        bytes[size] = (uint8_t)(state >> 32) >> (state >> 60 < 4);
    }
    return size;
}

/* Runs `count` inputs, the first drawn from the seed `first`. Those that reach what none before them did are written into files whose
 * names begin with `kept`, if there is one. */
static unsigned long run_random(uint64_t first, unsigned long count, const char *kept) {
    static uint8_t bytes[MOST_RANDOM];
    for (input = first; input < first + count; input++) {
        size_t size = drawn(bytes, input);
        unsigned before = reached_in_all();
        run(bytes, size);
        if (kept == NULL || reached_in_all() == before) continue;
        char name[256];
        snprintf(name, sizeof name, "%s%llu", kept, (unsigned long long)input);
        FILE *file = fopen(name, "wb");
        if (file == NULL || fwrite(bytes, 1, size, file) != size || fclose(file)) FAIL("an input cannot be written");
    }
    return count;
}

/* Runs inputs, one in each file, and prints the names of those that reach what none before them did. */
static unsigned long run_files(char **names, int count) {
    static uint8_t bytes[1 << 16];
    for (int i = 0; i < count; i++) {
        unsigned before = reached_in_all();
        FILE *file = fopen(names[i], "rb");
        if (file == NULL) FAIL("a file cannot be read");
        run(bytes, fread(bytes, 1, sizeof bytes, file));
        fclose(file);
        if (reached_in_all() > before) puts(names[i]);
    }
    return (unsigned long)count;
}

/* fuzz files FILE..: one input each. fuzz packed CORPUS STEP: each STEP-th of a corpus. fuzz random FIRST COUNT [KEPT]: inputs that are
 * drawn. */
int main(int argc, char **argv) {
    unsigned long ran = 0;
    if (argc > 2 && strcmp(argv[1], "files") == 0) {
        ran = run_files(argv + 2, argc - 2);
    } else if (argc == 4 && strcmp(argv[1], "packed") == 0) {
        FILE *file = fopen(argv[2], "rb");
        if (file == NULL) FAIL("the corpus cannot be read");
        ran = run_packed(file, strtoul(argv[3], NULL, 10));
        fclose(file);
    } else if (argc > 3 && strcmp(argv[1], "random") == 0) {
        ran = run_random(strtoull(argv[2], NULL, 10), strtoul(argv[3], NULL, 10), argc > 4 ? argv[4] : NULL);
    } else {
        FAIL("usage: fuzz files FILE.. | packed CORPUS STEP | random FIRST COUNT [KEPT]");
    }
    printf("%lu inputs passed, and reached %u things\n", ran, reached_in_all());
    return 0;
}
#endif
