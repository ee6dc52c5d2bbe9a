/* How often those who ask the door may still do so: each network of theirs counts by itself, and no two share what is left. */
#ifndef FAZ_BUDGET_H
#define FAZ_BUDGET_H

#include <sodium.h>
#include <stdbool.h>
#include <stdint.h>

/* How many bits of an address make the network; of a wider one several addresses ask, and may so together. */
typedef enum network_kind {
    NETWORK_NONE,
    NETWORK_UNKNOWN, /* of all whose address can't be read */
    NETWORK_4_32,
    NETWORK_4_24,
    NETWORK_6_64,
    NETWORK_6_48,
    NETWORK_6_32,
    NETWORK_KINDS
} network_kind;

typedef struct network {
    uint64_t prefix;
    network_kind kind;
} network;

enum { NETWORKS = 3 };

/* Those that an address is in, the narrowest first. */
typedef struct networks {
    uint32_t count;
    network of[NETWORKS];
} networks;

void networks_of(networks *self, const char *address);

enum {
    BUDGET_SETS = 4096,
    BUDGET_WAYS = 16,
    BUDGET_MOST = 100000, /* tries of an address in a minute */
    BUDGET_PART = 4       /* what is asked once more to keep what one has takes such a part of a try */
};

/* When it may ask as often as if it had never asked: what is whole needn't be remembered. */
typedef struct network_use {
    network of;
    int64_t whole_at; /* nanoseconds */
} network_use;

/* It remembers so many networks, and if there are more, forgets those whose tries are nearest to be whole. */
typedef struct budget {
    int64_t tries; /* of an address in a minute */
    uint8_t key[crypto_shorthash_KEYBYTES];
    network_use use[BUDGET_SETS][BUDGET_WAYS];
} budget;

void budget_begin(budget *self, long tries);
/* Takes a try, or a part of it, of each network. False, and it takes nothing: one of them has none left now. `now` is in nanoseconds. */
bool budget_take(budget *self, const networks *of, bool is_part, int64_t now);
#endif
