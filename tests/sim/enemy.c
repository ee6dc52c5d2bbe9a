#include "enemy.h"

#include "../../lib/sha256.h"

#include <stdlib.h>
#include <string.h>

enum { TRICKS = 5, KIND_AT = 13, HELLO = 0, SHORTEST_SEALED = 12 };

void enemy_see(enemy *self, const datagram *come, bool stays) {
    heard *to = stays ? &self->lasting : &self->parting;
    if (to->count < ENEMY_KEEPS) {
        to->kept[to->count++] = datagram_copied(come);
        return;
    }
    free(to->kept[to->oldest]);
    to->kept[to->oldest] = datagram_copied(come);
    to->oldest = (to->oldest + 1) % ENEMY_KEEPS;
}

static trick make_noise(enemy *self) {
    self->length = draws_below(&self->draws, ENEMY_BYTES + 1);
    for (size_t at = 0; at < self->length / 4 + 1; at++) {
        uint32_t word = draws_below(&self->draws, UINT32_MAX);
        for (int byte = 0; byte < 4; byte++)
            self->bytes[4 * at + (size_t)byte] = (uint8_t)(word >> (24 - 8 * byte));
    }
    return TRICK_NOISE;
}

/* Copies one of those that were heard, if any was. Comes back with it, or null. */
static const datagram *copy_one(enemy *self, const heard *of) {
    if (of->count == 0)
        return NULL;
    const datagram *one = of->kept[draws_below(&self->draws, of->count)];
    self->length = one->length;
    memcpy(self->bytes, one->bytes, one->length);
    return one;
}

static trick make_changed(enemy *self) {
    if (copy_one(self, &self->lasting) == NULL)
        return make_noise(self);
    if (self->length > 0) {
        uint32_t place = draws_below(&self->draws, (uint32_t)self->length);
        self->bytes[place] ^= (uint8_t)(1u << draws_below(&self->draws, 8));
    }
    return TRICK_CHANGED;
}

/* The key by which a datagram was sealed, but for one of the three numbers. */
static seal_key other_key(enemy *self, const datagram *one) {
    seal_key key = { self->number, 0, 0 };
    if (self->length <= KIND_AT || self->bytes[KIND_AT] != HELLO)
        key = (seal_key){ self->number, self->openings[one->from], self->openings[self->me] };
    switch (draws_below(&self->draws, 3)) {
    case 0: key.number++; break;
    case 1: key.from++; break;
    default: key.to++;
    }
    return key;
}

static trick make_foreign(enemy *self) {
    const datagram *one = copy_one(self, &self->lasting);
    if (one == NULL)
        return make_noise(self);
    seal_key key = other_key(self, one);
    if (self->length >= SHORTEST_SEALED)
        seal(self->bytes, self->length, key);
    return TRICK_FOREIGN;
}

static trick make_parting(enemy *self, const bool gone[FAZGROND_MACHINES]) {
    const datagram *one = copy_one(self, &self->parting);
    if (one == NULL)
        return make_noise(self);
    return gone[one->from] ? TRICK_GONE : TRICK_AGAIN;
}

trick enemy_make(enemy *self, const bool gone[FAZGROND_MACHINES]) {
    switch (draws_below(&self->draws, TRICKS)) {
    case 0: return make_changed(self);
    case 1: return make_foreign(self);
    case 2: return make_parting(self, gone);
    case 3: return copy_one(self, &self->lasting) != NULL ? TRICK_AGAIN : make_noise(self);
    default: return make_noise(self);
    }
}

static void forget(heard *self) {
    while (self->count > 0)
        free(self->kept[--self->count]);
}

void enemy_close(enemy *self) {
    forget(&self->lasting);
    forget(&self->parting);
}
