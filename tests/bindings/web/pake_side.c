/* One side of the proof of a short code, by GnuTLS, for tests of the one in JavaScript: pake_side host|guest NAME SECRET. Each line that it
 * reads is what the other side said, as digits; it writes how it stands, what it says, and the key once it is done. */
#include "pake.h"

#include <stdio.h>
#include <string.h>

static size_t read_digits(const char *line, uint8_t *out) {
    size_t length = 0;
    unsigned byte;
    while (length < PAKE_BYTES && sscanf(line + 2 * length, "%2x", &byte) == 1)
        out[length++] = (uint8_t)byte;
    return length;
}

static void write_digits(const uint8_t *bytes, size_t length) {
    putchar(' ');
    for (size_t at = 0; at < length; at++)
        printf("%02x", bytes[at]);
}

int main(int count, char **words) {
    static const char *const states[] = { "more", "done", "wrong" };
    char line[2 * PAKE_BYTES + 2];
    uint8_t came[PAKE_BYTES], said[PAKE_BYTES], key[PAKE_KEY];
    pake *self = count == 4 ? faz_pake_open(strcmp(words[1], "host") == 0, words[2], words[3]) : NULL;
    while (self != NULL && fgets(line, sizeof line, stdin) != NULL) {
        size_t size;
        pake_answer now = faz_pake_turn(self, came, read_digits(line, came), said, &size);
        printf("%s", states[now]);
        write_digits(said, size);
        if (now == PAKE_DONE)
            faz_pake_key(self, key);
        write_digits(key, now == PAKE_DONE ? PAKE_KEY : 0);
        putchar('\n');
        fflush(stdout);
    }
    faz_pake_close(self);
    return 0;
}
