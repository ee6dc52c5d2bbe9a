/* The module's memory: the three functions by which the library asks for it, and two by which JavaScript does.
 *
 * Blocks have sizes of their own classes, four from each power of two to the next, and a list of free ones for each. What is freed is
 * given out again in its class alone, so a game that opens and closes matches for days needs no more than it needed at once. */
#include <stdbool.h>
#include <stddef.h>
#include <stdint.h>

enum { ALIGN = 16, PAGE = 65536, CLASSES = 256 };

/* A block that is free, or what stands before one that isn't. */
typedef union head {
    union head *next;
    size_t class;
    uint8_t room[ALIGN];
} head;

/* A block, if there was memory for it. Its address is never null. */
typedef struct block {
    bool given;
    void *at;
} block;

block rattle_alloc(size_t size, size_t align);
block rattle_realloc(void *at, size_t kept, size_t size, size_t align);
void rattle_dealloc(void *at);

extern uint8_t __heap_base;
static head *free_blocks[CLASSES];
static uintptr_t top, end;

/* Sizes up to 8 * ALIGN are multiples of ALIGN; from there on each power of two has four. */
static size_t class_of(size_t size) {
    size_t units = (size + ALIGN - 1) / ALIGN;
    if (units <= 8)
        return units;
    size_t power = (size_t)(63 - __builtin_clzll(units - 1)); /* 3 and more */
    return 8 + (power - 3) * 4 + ((units - 1) >> (power - 2)) - 4 + 1;
}

static size_t size_of(size_t class) {
    if (class <= 8)
        return class * ALIGN;
    size_t power = (class - 9) / 4 + 3, part = (class - 9) % 4;
    return ((5 + part) << (power - 2)) * ALIGN;
}

/* Whether the memory reaches so far, after it was made larger if it has to be. The first 4 GiB are all there is. */
static bool reaches(uintptr_t to) {
    if (top == 0) {
        top = ((uintptr_t)&__heap_base + ALIGN - 1) / ALIGN * ALIGN;
        end = __builtin_wasm_memory_size(0) * PAGE;
    }
    if (to <= end)
        return true;
    size_t pages = (to - end + PAGE - 1) / PAGE;
    if (to > UINT32_MAX || __builtin_wasm_memory_grow(0, pages) == (size_t)-1)
        return false;
    end += pages * PAGE;
    return true;
}

static void *taken(size_t size) {
    size_t class = class_of(size > 0 ? size : 1);
    if (size > UINT32_MAX)
        return NULL;
    head *found = free_blocks[class];
    if (found != NULL)
        free_blocks[class] = found->next;
    else if (reaches(top) && reaches(top + ALIGN + size_of(class))) {
        found = (head *)top;
        top += ALIGN + size_of(class);
    } else
        return NULL;
    found->class = class;
    return found + 1;
}

static void given_back(void *at) {
    head *freed = (head *)at - 1;
    size_t class = freed->class;
    freed->next = free_blocks[class];
    free_blocks[class] = freed;
}

static block block_of(void *at) {
    static uint8_t none;
    return (block){ at != NULL, at != NULL ? at : &none };
}

/* No block of the library asks for more alignment than ALIGN. */
block rattle_alloc(size_t size, size_t align) {
    (void)align;
    return block_of(taken(size));
}

block rattle_realloc(void *at, size_t kept, size_t size, size_t align) {
    (void)align;
    if (size <= size_of(((head *)at - 1)->class))
        return block_of(at);
    void *to = taken(size);
    if (to != NULL) {
        __builtin_memcpy(to, at, kept);
        given_back(at);
    }
    return block_of(to);
}

void rattle_dealloc(void *at) { given_back(at); }

/* Memory for JavaScript; 0 if there is none. */
__attribute__((export_name("alloc"))) uint32_t web_alloc(uint32_t size);
uint32_t web_alloc(uint32_t size) { return (uint32_t)(uintptr_t)taken(size); }

__attribute__((export_name("dealloc"))) void web_dealloc(uint32_t at);
void web_dealloc(uint32_t at) { given_back((void *)(uintptr_t)at); }
