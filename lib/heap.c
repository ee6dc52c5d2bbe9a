/* The three functions by which the library asks for memory, over those of the C library. A block of no bytes gets `align`
 * bytes, so that it has an address of its own. No block of the library asks for more alignment than malloc gives. */
#include <stdbool.h>
#include <stddef.h>
#include <stdlib.h>

/* A block, if there was memory for it. Its address is never null. */
typedef struct block {
    bool given;
    void *at;
} block;

block rattle_alloc(size_t size, size_t align);
block rattle_realloc(void *at, size_t old_size, size_t size, size_t align);
void rattle_dealloc(void *at);

static block block_of(void *at) {
    static char none;
    block found = { at != NULL, at != NULL ? at : &none };
    return found;
}

block rattle_alloc(size_t size, size_t align) { return block_of(malloc(size != 0 ? size : align)); }

block rattle_realloc(void *at, size_t old_size, size_t size, size_t align) {
    (void)old_size;
    return block_of(realloc(at, size != 0 ? size : align));
}

void rattle_dealloc(void *at) { free(at); }
