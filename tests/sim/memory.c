#include "memory.h"

#include <malloc.h>
#include <stdbool.h>
#include <stdlib.h>

/* Its address is never null. */
typedef struct block {
    bool is_given;
    void *at;
} block;

block rattle_alloc(size_t size, size_t align);
block rattle_realloc(void *at, size_t old_size, size_t size, size_t align);
void rattle_dealloc(void *at);

memory library_memory;

void memory_refuse(uint32_t which) {
    library_memory.asked = 0;
    library_memory.refused = which;
}

static bool is_refused(void) { return ++library_memory.asked == library_memory.refused; }

static block block_of(void *at) {
    static char none;
    library_memory.bytes += malloc_usable_size(at);
    library_memory.blocks += at != NULL;
    return (block){ at != NULL, at != NULL ? at : &none };
}

static void is_back(void *at) {
    library_memory.bytes -= malloc_usable_size(at);
    library_memory.blocks--;
}

/* (a block of no bytes gets `align` bytes) */
block rattle_alloc(size_t size, size_t align) { return block_of(is_refused() ? NULL : malloc(size != 0 ? size : align)); }

block rattle_realloc(void *at, size_t old_size, size_t size, size_t align) {
    (void)old_size;
    if (is_refused())
        return block_of(NULL);
    is_back(at);
    void *made = realloc(at, size != 0 ? size : align);
    if (made == NULL)
        abort();
    return block_of(made);
}

void rattle_dealloc(void *at) {
    is_back(at);
    free(at);
}
