/* The six functions that the library calls, by Linux's calling convention. Memory comes from the process's heap, so the DLL needs
 * no C library. A block of no bytes gets `align` bytes. No block of the library asks for more alignment than the 16 bytes that
 * the heap gives. */
#include <stdbool.h>
#include <stddef.h>
#include <stdint.h>

#define SYSV __attribute__((sysv_abi))
#define KERNEL32 __declspec(dllimport)

KERNEL32 void *GetProcessHeap(void);
KERNEL32 void *HeapAlloc(void *heap, uint32_t flags, size_t size);
KERNEL32 void *HeapReAlloc(void *heap, uint32_t flags, void *at, size_t size);
KERNEL32 int HeapFree(void *heap, uint32_t flags, void *at);

/* A block, if there was memory for it. Its address is never null. */
typedef struct block {
    bool given;
    void *at;
} block;

SYSV block sysv_rattle_alloc(size_t size, size_t align);
SYSV block sysv_rattle_realloc(void *at, size_t old_size, size_t size, size_t align);
SYSV void sysv_rattle_dealloc(void *at);
SYSV void *sysv_memcpy(void *restrict to, const void *restrict from, size_t size);
SYSV void *sysv_memmove(void *to, const void *from, size_t size);
SYSV void *sysv_memset(void *to, int byte, size_t size);

static block block_of(void *at) {
    static const char none;
    block found = { at != NULL, at != NULL ? at : (void *)&none };
    return found;
}

SYSV block sysv_rattle_alloc(size_t size, size_t align) { return block_of(HeapAlloc(GetProcessHeap(), 0, size != 0 ? size : align)); }

SYSV block sysv_rattle_realloc(void *at, size_t old_size, size_t size, size_t align) {
    (void)old_size;
    return block_of(HeapReAlloc(GetProcessHeap(), 0, at, size != 0 ? size : align));
}

SYSV void sysv_rattle_dealloc(void *at) { HeapFree(GetProcessHeap(), 0, at); }

/* Plain loops, which the compiler must not take for calls of these same functions: build.sh tells it so. */

SYSV void *sysv_memcpy(void *restrict to, const void *restrict from, size_t size) {
    char *restrict out = to;
    const char *restrict in = from;
    for (size_t at = 0; at < size; at++)
        out[at] = in[at];
    return to;
}

SYSV void *sysv_memmove(void *to, const void *from, size_t size) {
    char *out = to;
    const char *in = from;
    if ((uintptr_t)to - (uintptr_t)from >= size) { /* `to` doesn't begin inside of what is read */
        for (size_t at = 0; at < size; at++)
            out[at] = in[at];
    } else {
        for (size_t at = size; at > 0; at--)
            out[at - 1] = in[at - 1];
    }
    return to;
}

SYSV void *sysv_memset(void *to, int byte, size_t size) {
    char *out = to;
    for (size_t at = 0; at < size; at++)
        out[at] = (char)byte;
    return to;
}
