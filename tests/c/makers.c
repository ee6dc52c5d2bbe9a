/* What the header's makers make, as text: the members of each struct with their values, which the other languages' makers give too. As
 * C++ it is what those of the classes make. */
#ifdef __cplusplus
#include "fazgrond.hpp"
#define SETTINGS fazgrond::settings_of
#define MATCH fazgrond::match_of
#else
#include "fazgrond.h"
#define SETTINGS settings_of
#define MATCH fazgrond_match_for
#endif

#include <inttypes.h>
#include <stdio.h>

#define ONE(it, name) printf(" " #name " %" PRIu64, (uint64_t)(it).name)
#define ALL(it, name) list(" " #name, (it).name)

#ifndef __cplusplus
static fazgrond_settings settings_of(uint32_t players, uint32_t local) {
    fazgrond_settings made = fazgrond_settings_for(players);
    made.local = local;
    return made;
}
#endif

static void list(const char *name, const uint32_t *of) {
    fputs(name, stdout);
    for (int at = 0; at < FAZGROND_PLAYERS; at++)
        printf(" %" PRIu32, of[at]);
}

static void tell_settings(fazgrond_settings it) {
    fputs("settings", stdout);
    ONE(it, size), ONE(it, profile), ONE(it, players), ONE(it, local), ONE(it, threshold), ONE(it, limit), ONE(it, log);
    ALL(it, delays), ALL(it, masks);
    puts("");
}

static void tell_match(fazgrond_match it) {
    fputs("match", stdout);
    ONE(it, size);
    fputs(" numbers", stdout);
    for (int at = 0; at < FAZGROND_MACHINES; at++)
        printf(" %" PRIu64, it.numbers[at]);
    ONE(it, draw), ONE(it, digest), ONE(it, opening), ONE(it, comers), ONE(it, me), ONE(it, machines);
    ALL(it, owners);
    ONE(it, silent_after), ONE(it, notify_after), ONE(it, stalled_after), ONE(it, words), ONE(it, held_turns);
    puts("");
}

static void tell_epoch(fazgrond_epoch it) {
    fputs("epoch", stdout);
    ONE(it, size), ONE(it, words), ONE(it, threshold), ONE(it, machines), ONE(it, id), ONE(it, base);
    ALL(it, owners), ALL(it, delays);
    puts("");
}

static void tell_mark(fazgrond_mark it) {
    fputs("mark", stdout);
    ONE(it, size), ONE(it, threshold), ONE(it, ticket);
    ALL(it, comes), ALL(it, delays);
    puts("");
}

int main(void) {
    fazgrond_settings two = SETTINGS(2, 1 << 1), five = SETTINGS(5, 1 << 1 | 1 << 4);
    fazgrond_match match = MATCH(2, 1);
    fazgrond_one_number(&match, 7);
    match.draw = 5, match.owners[0] = 0, match.owners[1] = 1;
    tell_settings(two);
    tell_settings(five);
    tell_match(match);
    tell_epoch(fazgrond_epoch_for(&match, &two));
    tell_mark(fazgrond_mark_for());
    return 0;
}
