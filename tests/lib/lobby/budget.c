/* How often networks may ask the door, in a time of the test's own. */
#include "../../../programs/door/budget.h"
#include "../../check.h"

#include <stdio.h>

enum { TRIES = 20, OTHERS = 1000 };
#define SECOND INT64_C(1000000000)

static budget asked;

static bool may_ask(const char *address, int64_t now) {
    networks of;
    networks_of(&of, address);
    return budget_take(&asked, &of, false, now);
}

/* How many of so many asks of one address are allowed at once. */
static int allowed(const char *address, int times, int64_t now) {
    int count = 0;
    for (int at = 0; at < times; at++)
        count += may_ask(address, now);
    return count;
}

/* Of as many who never asked before, each elsewhere, how many may. */
static int allowed_elsewhere(int64_t now) {
    char address[64];
    int count = 0;
    for (int at = 0; at < OTHERS; at++) {
        snprintf(address, sizeof address, at % 2 == 0 ? "198.%d.%d.7" : "2a01:%x:%x::1", 18 + at / 250, at % 250 + 1);
        count += may_ask(address, now);
    }
    return count;
}

static void check_address(const char *address, const char *same, const char *other) {
    budget_begin(&asked, TRIES);
    CHECK_SAY(allowed(address, 2 * TRIES, SECOND) == TRIES, "%s", address);
    CHECK_SAY(allowed(same, 1, SECOND) == 0 && allowed(other, 2 * TRIES, SECOND) == TRIES, "%s", same);
    CHECK_SAY(allowed(address, 2, 4 * SECOND) == 1, "tries come back one by one");
    CHECK_SAY(allowed(address, 2 * TRIES, 70 * SECOND) == TRIES, "and all in a minute");
}

/* A host that keeps its plate pays a part of a try; and a whole /32 can't keep all plates in the minute for which each is kept. */
static void check_parts(void) {
    networks of;
    char address[64];
    int count = 0;
    budget_begin(&asked, TRIES);
    networks_of(&of, "192.0.2.7");
    for (int at = 0; at < 1000; at++)
        count += budget_take(&asked, &of, true, SECOND);
    CHECK_SAY(count == 80 && !may_ask("192.0.2.7", SECOND), "what is kept is counted");
    for (int at = count = 0; at < 65536; at++) {
        snprintf(address, sizeof address, "2001:db8:%x::1", at);
        networks_of(&of, address);
        count += budget_take(&asked, &of, true, SECOND);
    }
    CHECK_SAY(count == 20480, "what a /32 keeps");
}

/* Each address of a network asks twice, and there are many: `what` has a place for a number below 65,536. */
static void check_crowd(const char *what, int addresses, int due) {
    char address[64];
    int count = 0;
    budget_begin(&asked, TRIES);
    for (int times = 0; times < 2; times++)
        for (int at = 0; at < addresses; at++) {
            snprintf(address, sizeof address, what, at);
            count += may_ask(address, SECOND);
        }
    CHECK_SAY(count == due, "%s", what);
    CHECK_SAY(allowed_elsewhere(SECOND) == OTHERS, "others pay nothing of that");
}

/* Far more networks than are remembered ask once each. Whose tries are all gone has none meanwhile, and nobody is refused for others. */
static void check_memory(void) {
    char address[64];
    int refused = 0, given = 0;
    budget_begin(&asked, TRIES);
    CHECK_SAY(allowed("192.0.2.7", TRIES, SECOND) == TRIES, "an address");
    for (int at = 0; at < 2 * BUDGET_SETS * BUDGET_WAYS; at++) {
        snprintf(address, sizeof address, "%d.%d.%d.1", 1 + at / 65536, at / 256 % 256, at % 256);
        refused += !may_ask(address, SECOND);
        given += at % 1000 == 0 && may_ask("192.0.2.7", SECOND);
    }
    CHECK_SAY(refused == 0, "who never asked may");
    CHECK_SAY(given == 0, "and who has asked too often isn't forgotten");
}

int main(void) {
    if (sodium_init() < 0)
        return 2;
    check_address("192.0.2.7", "::ffff:192.0.2.7", "192.0.2.8");
    check_address("2001:db8:1:2::1", "2001:0db8:0001:0002:ffff::", "2001:db8:1:3::1");
    check_address("unknown", "nowhere", "::");
    check_parts();
    check_crowd("192.0.2.%d", 256, 16 * TRIES);
    check_crowd("2001:db8:1:%x::1", 65536, 16 * TRIES);
    check_crowd("2001:db8:%x::1", 65536, 256 * TRIES);
    check_memory();
    return checks_end();
}
