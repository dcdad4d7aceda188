/* The heap of the library: what it asks for, over the C library's malloc, realloc and free.
 *
 * A program that links the static library may bring an allocator of its own instead: by functions of these three names, or by a malloc,
 * a realloc and a free of its own. The three must be of one allocator.
 */
#include <stdbool.h>
#include <stddef.h>
#include <stdlib.h>

/* The address of a block, if there is one. Without one the address is some valid one, which nobody reads or frees. */
typedef struct block {
    bool found;
    void *address;
} block;

static char no_block;

static block found_or_none(void *address) {
    if (address == NULL) {
        return (block){.found = false, .address = &no_block};
    }
    return (block){.found = true, .address = address};
}

/* malloc and realloc may return NULL for a size of 0, which is no failure. So a block has one byte at least. */
static size_t at_least_one(size_t size) {
    return size == 0 ? 1 : size;
}

/* The library asks for alignments up to 16, which every block of malloc has. */
block rattle_alloc(size_t size, size_t align) {
    (void)align;
    return found_or_none(malloc(at_least_one(size)));
}

/* Only the first `kept` bytes have to stay. realloc keeps more. */
block rattle_realloc(void *address, size_t kept, size_t size, size_t align) {
    (void)kept;
    (void)align;
    return found_or_none(realloc(address, at_least_one(size)));
}

void rattle_dealloc(void *address) {
    free(address);
}
