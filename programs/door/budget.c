#define _POSIX_C_SOURCE 200809L
#include "budget.h"

#include <arpa/inet.h>
#include <string.h>

/* Nanoseconds. */
#define MINUTE INT64_C(60000000000)

/* How many times the tries of an address a network has. */
static const int64_t times[NETWORK_KINDS] = {
    [NETWORK_UNKNOWN] = 1, [NETWORK_4_32] = 1, [NETWORK_4_24] = 16, [NETWORK_6_64] = 1, [NETWORK_6_48] = 16, [NETWORK_6_32] = 256
};

static void add(networks *self, network_kind kind, const uint8_t *bytes, size_t length) {
    network *to = &self->of[self->count++];
    *to = (network){ .kind = kind };
    for (size_t at = 0; at < length; at++)
        to->prefix = to->prefix << 8 | bytes[at];
}

void networks_of(networks *self, const char *address) {
    uint8_t four[sizeof(struct in_addr)];
    struct in6_addr six;
    bool is_six = inet_pton(AF_INET6, address, &six) == 1, is_mapped = is_six && IN6_IS_ADDR_V4MAPPED(&six);
    self->count = 0;
    if (is_mapped)
        memcpy(four, six.s6_addr + sizeof six - sizeof four, sizeof four);
    if (is_mapped || inet_pton(AF_INET, address, four) == 1) {
        add(self, NETWORK_4_32, four, 4);
        add(self, NETWORK_4_24, four, 3);
    } else if (is_six) {
        add(self, NETWORK_6_64, six.s6_addr, 8);
        add(self, NETWORK_6_48, six.s6_addr, 6);
        add(self, NETWORK_6_32, six.s6_addr, 4);
    } else {
        add(self, NETWORK_UNKNOWN, NULL, 0);
    }
}

void budget_begin(budget *self, long tries) {
    memset(self, 0, sizeof *self);
    self->tries = tries;
    randombytes_buf(self->key, sizeof self->key);
}

static network_use *set_of(budget *self, const network *of) {
    uint8_t bytes[sizeof of->prefix + 1] = { (uint8_t)of->kind }, digest[crypto_shorthash_BYTES];
    uint64_t hash;
    memcpy(bytes + 1, &of->prefix, sizeof of->prefix);
    crypto_shorthash(digest, bytes, sizeof bytes, self->key);
    memcpy(&hash, digest, sizeof hash);
    return self->use[hash % BUDGET_SETS];
}

/* What is remembered of a network; null: nothing is. */
static network_use *find(budget *self, const network *of) {
    network_use *set = set_of(self, of);
    for (int way = 0; way < BUDGET_WAYS; way++)
        if (set[way].of.kind == of->kind && set[way].of.prefix == of->prefix)
            return &set[way];
    return NULL;
}

/* A place for one of which nothing is remembered. */
static network_use *place_for(budget *self, const network *of) {
    network_use *set = set_of(self, of), *nearest = set;
    for (int way = 1; way < BUDGET_WAYS; way++)
        if (set[way].whole_at < nearest->whole_at)
            nearest = &set[way];
    *nearest = (network_use){ .of = *of };
    return nearest;
}

static int64_t cost_of(const budget *self, network_kind kind, bool is_part) {
    return MINUTE / (self->tries * times[kind] * (is_part ? BUDGET_PART : 1));
}

bool budget_take(budget *self, const networks *of, bool is_part, int64_t now) {
    for (uint32_t at = 0; at < of->count; at++) {
        const network_use *use = find(self, &of->of[at]);
        if (use != NULL && use->whole_at + cost_of(self, of->of[at].kind, is_part) > now + MINUTE)
            return false;
    }
    for (uint32_t at = 0; at < of->count; at++) {
        network_use *use = find(self, &of->of[at]);
        if (use == NULL)
            use = place_for(self, &of->of[at]);
        use->whole_at = (use->whole_at > now ? use->whole_at : now) + cost_of(self, of->of[at].kind, is_part);
    }
    return true;
}
