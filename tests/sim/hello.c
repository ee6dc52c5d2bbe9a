#include "hello.h"

#include "../../lib/sha256.h"

/* Where a packet has its kind, and a hello what its machine is able to (docs/WIRE.md). */
enum { KIND_AT = 13, HELLO = 0, ABILITIES_AT = 60, CARRIES = 1 };

/* By what a pair seals in an epoch. */
static uint64_t number_in(uint64_t number, uint64_t epoch) {
    uint8_t bytes[16];
    sha256 made = sha256_begin();
    seal_put(bytes, number);
    seal_put(bytes + 8, epoch);
    sha256_add(&made, bytes, sizeof bytes);
    return epoch == 0 ? number : sha256_end(&made);
}

void hello_says_no_carrying(uint8_t *bytes, size_t length, uint64_t number, uint64_t epoch) {
    seal_key key = { .number = number_in(number, epoch) };
    if (length <= ABILITIES_AT || bytes[KIND_AT] != HELLO || !is_sealed(bytes, length, key))
        return;
    bytes[ABILITIES_AT] &= (uint8_t)~CARRIES;
    seal(bytes, length, key);
}
