#include "checks.h"
#include <stdio.h>
#include <stdlib.h>

static unsigned long passed, failed;

void check(bool holds, const char *what, const char *file, int line) {
    if (holds) {
        passed++;
        return;
    }
    failed++;
    printf("%s:%d: %s\n", file, line, what);
}

int tell(void) {
    printf("%lu passed, %lu failed\n", passed, failed);
    return failed != 0;
}

/* --- The heap ------------------------------------------------------------------------------------------------------------------- */

typedef struct {
    bool is_made;
    void *block;
} tried;

unsigned long allocations, refused_one;
long blocks;
static char nowhere;

static tried given(void *block) { return block ? (tried){true, block} : (tried){false, &nowhere}; }

tried rattle_alloc(size_t size, size_t align);
tried rattle_realloc(void *block, size_t kept, size_t size, size_t align);
void rattle_dealloc(void *block);

tried rattle_alloc(size_t size, size_t align) {
    if (++allocations == refused_one) return given(NULL);
    blocks++;
    return given(malloc(size ? size : align));
}

tried rattle_realloc(void *block, size_t kept, size_t size, size_t align) {
    (void)kept;
    if (++allocations == refused_one) return given(NULL);
    return given(realloc(block, size ? size : align));
}

void rattle_dealloc(void *block) {
    blocks--;
    free(block);
}
