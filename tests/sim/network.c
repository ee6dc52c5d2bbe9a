#include "network.h"

#include "room.h"

#include <string.h>

static bool is_before(const datagram *one, const datagram *other) {
    return one->due != other->due ? one->due < other->due : one->order < other->order;
}

static void swap(network *self, size_t one, size_t other) {
    datagram *kept = self->way[one];
    self->way[one] = self->way[other];
    self->way[other] = kept;
}

static void make_room(network *self) {
    if (self->count < self->room)
        return;
    self->room = 2 * self->room + 64;
    self->way = room_grown(self->way, self->room, sizeof *self->way);
}

datagram *datagram_copied(const datagram *sent) {
    size_t length = offsetof(datagram, bytes) + sent->length;
    datagram *made = room_grown(NULL, 1, length);
    memcpy(made, sent, length);
    return made;
}

/* Puts a datagram in its place of the heap, in which there is room for it. */
static void insert(network *self, datagram *one) {
    size_t at = self->count++;
    self->way[at] = one;
    for (; at > 0 && is_before(self->way[at], self->way[(at - 1) / 2]); at = (at - 1) / 2)
        swap(self, at, (at - 1) / 2);
}

void network_put(network *self, const datagram *sent, uint64_t due) {
    datagram *made = datagram_copied(sent);
    made->due = due;
    made->order = self->orders++;
    make_room(self);
    insert(self, made);
}

void network_lose(network *self, uint32_t to) {
    size_t count = self->count;
    self->count = 0;
    for (size_t at = 0; at < count; at++)
        if (self->way[at]->to == to)
            free(self->way[at]);
        else
            insert(self, self->way[at]);
}

static uint64_t due_of(const conditions *with, uint64_t now, uint32_t late) { return now + with->delay + late * with->step; }

void network_send(network *self, const datagram *sent, uint64_t now) {
    const conditions *with = &self->conditions;
    uint32_t first = draws_below(&self->draws, with->late + 1);
    bool is_lost = draws_below(&self->draws, 100) < with->lost;
    bool is_twice = draws_below(&self->draws, 100) < with->twice;
    uint32_t second = draws_below(&self->draws, with->late + 1);
    if (!is_lost)
        network_put(self, sent, due_of(with, now, first));
    if (!is_lost && is_twice)
        network_put(self, sent, due_of(with, now, second));
}

uint64_t network_due(const network *self) { return self->count > 0 ? self->way[0]->due : UINT64_MAX; }

datagram *network_take(network *self) {
    datagram *first = self->way[0];
    self->way[0] = self->way[--self->count];
    for (size_t at = 0, least;; at = least) {
        least = at;
        for (size_t below = 2 * at + 1; below <= 2 * at + 2 && below < self->count; below++)
            if (is_before(self->way[below], self->way[least]))
                least = below;
        if (least == at)
            return first;
        swap(self, at, least);
    }
}

void network_close(network *self) {
    while (self->count > 0)
        free(self->way[--self->count]);
    free(self->way);
    *self = (network){ 0 };
}
