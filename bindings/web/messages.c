/* The messages of a match that is watched over a broker (docs/WATCH.md), as lib/watch reads them, for JavaScript. All of lib/watch's own
 * file is taken in, since a snapshot is read here without calling a game: JavaScript has that. */
#include <message.c>

#define EXPORT(name) __attribute__((export_name(#name)))
#define AT(type, at) ((type *)(uintptr_t)(at))

/* The places that watch.js reads. */
_Static_assert(offsetof(faz_head, players) == 0 && offsetof(faz_head, rate) == 4 && offsetof(faz_head, size) == 48
                   && offsetof(faz_head, game) == 52,
               "faz_head");
_Static_assert(offsetof(faz_sum, frame) == 0 && offsetof(faz_sum, gap) == 4 && offsetof(faz_sum, digest) == 8, "faz_sum");

EXPORT(match_number) uint64_t web_match_number(uint32_t match) { return faz_number(AT(const char, match)); }

EXPORT(read_head) uint32_t web_read_head(uint32_t bytes, uint32_t length, uint64_t number, uint32_t head) {
    return faz_read_head(AT(const uint8_t, bytes), length, number, AT(faz_head, head));
}

EXPORT(read_rows)
uint32_t web_read_rows(uint32_t bytes, uint32_t length, uint64_t number, uint32_t players, uint32_t first, uint32_t rows) {
    return faz_read_rows(AT(const uint8_t, bytes), length, number, players, AT(uint32_t, first), AT(fazgrond_row, rows));
}

EXPORT(read_sum) uint32_t web_read_sum(uint32_t bytes, uint32_t length, uint64_t number, uint32_t sum) {
    return faz_read_sum(AT(const uint8_t, bytes), length, number, AT(faz_sum, sum));
}

/* The state is all that is behind the first bytes, whose number comes back; 0 if this is no snapshot. */
EXPORT(read_snap) uint32_t web_read_snap(uint32_t bytes, uint32_t length, uint64_t number, uint32_t size, uint32_t sum) {
    const uint8_t *at = AT(const uint8_t, bytes);
    return length == HEAD + SUM + size && is_packet(at, length, FAZ_SNAP, SUM, number) && get_sum(at, AT(faz_sum, sum)) ? HEAD + SUM : 0;
}

EXPORT(read_end) uint32_t web_read_end(uint32_t bytes, uint32_t length, uint64_t number, uint32_t frames, uint32_t reason) {
    return faz_read_end(AT(const uint8_t, bytes), length, number, AT(uint32_t, frames), AT(char, reason));
}
