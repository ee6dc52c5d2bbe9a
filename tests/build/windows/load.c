/* fazgrond.dll in a program of Linux, for tests where there is no Windows: it does what Windows' loader would, with kernel32's
 * four functions over malloc, and defines the functions of fazgrond.h as calls of what the DLL exports. FAZGROND_DLL is the file.
 * It shows that the DLL's code runs at any place and by Windows' calling convention. It isn't Windows. */
#define _DEFAULT_SOURCE
#include <fazgrond.h>
#include <stdio.h>
#include <stdlib.h>
#include <string.h>
#include <sys/mman.h>

#define WINDOWS __attribute__((ms_abi))

typedef WINDOWS void function(void);

static uint8_t *image;

static void fail(const char *why) {
    fprintf(stderr, "fazgrond.dll: %s\n", why);
    exit(3);
}

static uint16_t u16(const uint8_t *at) {
    uint16_t value;
    memcpy(&value, at, sizeof value);
    return value;
}

static uint32_t u32(const uint8_t *at) {
    uint32_t value;
    memcpy(&value, at, sizeof value);
    return value;
}

static uint64_t u64(const uint8_t *at) {
    uint64_t value;
    memcpy(&value, at, sizeof value);
    return value;
}

/* kernel32. The heap's address is odd, so that nobody can take it for a block's. */

static void *const heap = (void *)1;

static WINDOWS void *get_process_heap(void) { return heap; }

static WINDOWS void *heap_alloc(void *of, uint32_t flags, size_t size) {
    if (of != heap || flags != 0)
        fail("HeapAlloc");
    return malloc(size != 0 ? size : 1);
}

static WINDOWS void *heap_realloc(void *of, uint32_t flags, void *at, size_t size) {
    if (of != heap || flags != 0 || at == NULL)
        fail("HeapReAlloc");
    return realloc(at, size != 0 ? size : 1);
}

static WINDOWS int heap_free(void *of, uint32_t flags, void *at) {
    if (of != heap || flags != 0 || at == NULL)
        fail("HeapFree");
    free(at);
    return 1;
}

static const struct {
    const char *name;
    function *code;
} kernel32[] = {
    { "GetProcessHeap", (function *)get_process_heap },
    { "HeapAlloc", (function *)heap_alloc },
    { "HeapReAlloc", (function *)heap_realloc },
    { "HeapFree", (function *)heap_free },
};

static function *kernel32_of(const char *name) {
    for (size_t at = 0; at < sizeof kernel32 / sizeof kernel32[0]; at++)
        if (strcmp(kernel32[at].name, name) == 0)
            return kernel32[at].code;
    fail(name);
    return NULL;
}

/* The image: its headers and sections at a place of its own, which isn't the one that the file asks for. */

static uint8_t *file_of(const char *name, size_t *size) {
    static uint8_t file[1 << 22];
    FILE *from = name != NULL ? fopen(name, "rb") : NULL;
    if (from == NULL)
        fail("no such file");
    *size = fread(file, 1, sizeof file, from);
    fclose(from);
    if (*size < 0x40 || *size == sizeof file || u32(file + u32(file + 0x3c)) != 0x4550)
        fail("no DLL");
    return file;
}

static void move_image(const uint8_t *optional) {
    uint64_t by = (uint64_t)(uintptr_t)image - u64(optional + 24);
    const uint8_t *block = image + u32(optional + 112 + 5 * 8), *end = block + u32(optional + 112 + 5 * 8 + 4);
    for (; block < end; block += u32(block + 4))
        for (uint32_t at = 8; at < u32(block + 4); at += 2) {
            uint8_t *word = image + u32(block) + (u16(block + at) & 0xfff);
            uint64_t moved = u64(word) + by;
            switch (u16(block + at) >> 12) {
            case 0: break;
            case 10: memcpy(word, &moved, sizeof moved); break;
            default: fail("a kind of relocation");
            }
        }
}

static void fill_imports(const uint8_t *optional) {
    const uint8_t *library = image + u32(optional + 112 + 8);
    if (library == image)
        return;
    for (; u32(library + 12) != 0; library += 20) {
        if (strcasecmp((const char *)image + u32(library + 12), "kernel32.dll") != 0)
            fail("a library other than kernel32.dll");
        for (uint8_t *slot = image + u32(library + 16); u64(slot) != 0; slot += 8) {
            function *code = kernel32_of((const char *)image + u32(slot) + 2);
            memcpy(slot, &code, sizeof code);
        }
    }
}

static function *export_of(const char *name) {
    const uint8_t *table = image + u32(image + u32(image + 0x3c) + 24 + 112);
    for (uint32_t at = 0; at < u32(table + 24); at++)
        if (strcmp((const char *)image + u32(image + u32(table + 32) + 4 * at), name) == 0) {
            uint32_t place = u16(image + u32(table + 36) + 2 * at);
            return (function *)(image + u32(image + u32(table + 28) + 4 * place));
        }
    fail(name);
    return NULL;
}

/* The functions of fazgrond.h. */

#define CALL(answer, name, parameters, arguments) \
    static WINDOWS answer(*dll_##name) parameters; \
    answer name parameters { return dll_##name arguments; }
#include "../../../build/windows/calls.h"
#undef CALL

static __attribute__((constructor)) void load(void) {
    size_t size;
    const uint8_t *file = file_of(getenv("FAZGROND_DLL"), &size);
    const uint8_t *head = file + u32(file + 0x3c), *optional = head + 24, *sections = optional + u16(head + 20);
    image = mmap(NULL, u32(optional + 56), PROT_READ | PROT_WRITE, MAP_PRIVATE | MAP_ANONYMOUS, -1, 0);
    if (image == MAP_FAILED || (u16(head + 22) & 1) != 0)
        fail("it can't be moved");
    memcpy(image, file, u32(optional + 60));
    for (uint16_t at = 0; at < u16(head + 6); at++) {
        const uint8_t *section = sections + 40 * at;
        uint32_t given = u32(section + 16), used = u32(section + 8);
        memcpy(image + u32(section + 12), file + u32(section + 20), given < used ? given : used);
    }
    move_image(optional);
    fill_imports(optional);
    for (uint16_t at = 0; at < u16(head + 6); at++) {
        const uint8_t *section = sections + 40 * at;
        uint32_t flags = u32(section + 36);
        int may = PROT_READ | (flags >> 29 & 1 ? PROT_EXEC : 0) | (flags >> 31 & 1 ? PROT_WRITE : 0);
        mprotect(image + u32(section + 12), u32(section + 8), may);
    }
#define CALL(answer, name, parameters, arguments) dll_##name = (WINDOWS answer(*) parameters)export_of(#name);
#include "../../../build/windows/calls.h"
    if (!((WINDOWS int (*)(void *, uint32_t, void *))(image + u32(optional + 16)))(image, 1, NULL))
        fail("it didn't start");
}
