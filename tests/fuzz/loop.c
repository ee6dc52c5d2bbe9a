/* In place of libFuzzer, where there is none: a loop of random inputs, and of changed ones. loop SECONDS [SEED [LEAST]]
 * It ends after so many seconds, and LEAST inputs. */
#include <stdint.h>
#include <stdio.h>
#include <stdlib.h>
#include <string.h>
#include <time.h>

int LLVMFuzzerTestOneInput(const uint8_t *data, size_t size);

enum { KEPT = 64, MOST = 2048 };

static uint64_t seed;

static uint32_t draw(uint32_t below) {
    seed ^= seed << 13;
    seed ^= seed >> 7;
    seed ^= seed << 17;
    return (uint32_t)(seed >> 32) % below;
}

int main(int count, char **words) {
    static uint8_t kept[KEPT][MOST];
    static size_t length[KEPT];
    time_t end = time(NULL) + (count > 1 ? atoi(words[1]) : 10);
    uint64_t first = count > 2 ? strtoull(words[2], NULL, 10) : (uint64_t)time(NULL), runs = 0;
    uint64_t least = count > 3 ? strtoull(words[3], NULL, 10) : 0;
    seed = 0x9e3779b97f4a7c15u * (first + 1);
    printf("seed %llu\n", (unsigned long long)first);
    fflush(stdout);
    for (; runs % 16 != 0 || runs < least || time(NULL) < end; runs++) {
        uint8_t *bytes = kept[draw(KEPT)];
        size_t *size = &length[(size_t)(bytes - kept[0]) / MOST];
        if (*size == 0 || draw(4) == 0) {
            *size = 1 + draw(MOST);
            for (size_t at = 0; at < *size; at++)
                bytes[at] = (uint8_t)draw(draw(2) == 0 ? 256 : 16);
        }
        for (uint32_t changes = draw(16); changes > 0; changes--)
            bytes[draw((uint32_t)*size)] = (uint8_t)draw(256);
        /* In memory of just its size, so that a sanitizer sees who reads past it. */
        uint8_t *input = malloc(*size);
        if (input == NULL)
            return 2;
        memcpy(input, bytes, *size);
        if (LLVMFuzzerTestOneInput(input, *size) != 0)
            return 1;
        free(input);
    }
    printf("%llu inputs\n", (unsigned long long)runs);
    return 0;
}
