/* What the library and the messages of watched matches call of the C library. */
#include <string.h>

/* These are written so that the compiler doesn't take them for calls of themselves. */
void *memmove(void *to, const void *from, size_t count) {
    __builtin_memmove(to, from, count); /* memory.copy */
    return to;
}

void *memcpy(void *to, const void *from, size_t count) { return memmove(to, from, count); }

void *memset(void *to, int byte, size_t count) {
    __builtin_memset(to, byte, count); /* memory.fill */
    return to;
}

int memcmp(const void *one, const void *other, size_t count) {
    const unsigned char *left = one, *right = other;
    for (size_t at = 0; at < count; at++)
        if (left[at] != right[at])
            return left[at] - right[at];
    return 0;
}

size_t strlen(const char *text) {
    size_t length = 0;
    while (text[length] != 0)
        length++;
    return length;
}

size_t strspn(const char *text, const char *letters) {
    size_t length = 0;
    for (const char *at = letters; text[length] != 0 && *at != 0;)
        if (text[length] == *at++) {
            length++;
            at = letters;
        }
    return length;
}
