/* Lets the N-th allocation fail. failed-allocations preloads it. */
#include <errno.h>
#include <fcntl.h>
#include <stdatomic.h>
#include <stdlib.h>
#include <sys/mman.h>
#include <unistd.h>

void *__libc_malloc(size_t), *__libc_calloc(size_t, size_t), *__libc_realloc(void *, size_t), *__libc_memalign(size_t, size_t);

static atomic_ulong before, *count = &before;
static unsigned long refused;

static int refuses(void) {
    return atomic_fetch_add(count, 1) + 1 == refused && (errno = ENOMEM);
}

/* The count is in a file, so that it survives however the program ends. */
__attribute__((constructor)) static void begin(void) {
    int file = open(getenv("FAILED_ALLOCATIONS_COUNT"), O_RDWR);
    void *at = mmap(0, sizeof *count, PROT_READ | PROT_WRITE, MAP_SHARED, file, 0);
    if (at == MAP_FAILED) _exit(99);
    count = at;
    refused = strtoul(getenv("FAILED_ALLOCATIONS_NUMBER"), 0, 10);
}

void *malloc(size_t n) { return refuses() ? 0 : __libc_malloc(n); }
void *calloc(size_t k, size_t n) { return refuses() ? 0 : __libc_calloc(k, n); }
void *realloc(void *p, size_t n) { return refuses() ? 0 : __libc_realloc(p, n); }
void *aligned_alloc(size_t a, size_t n) { return refuses() ? 0 : __libc_memalign(a, n); }
int posix_memalign(void **p, size_t a, size_t n) { return refuses() || !(*p = __libc_memalign(a, n)) ? ENOMEM : 0; }
