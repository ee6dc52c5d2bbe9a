#include "ice.h"
#include "seal.h"

#include <sodium.h>
#include <stdlib.h>
#include <string.h>
#include <unistd.h>

/* Milliseconds. */
enum {
    KEPT_ALIVE = 250,  /* something is sent after so much quiet */
    HANDED_OVER = 100, /* the same while a way isn't heard yet */
    SILENT = 1000,     /* another way is looked for */
    TOLD_AGAIN = 600,  /* what carries signals may lose some */
    TRIED = 2000,      /* a way that isn't there by then is given up for another one, the next one after twice that.. */
    APART = 300,       /* between two ways that the other machine wants */
    LATE = 1000,       /* what is on its way on the way before may still come */
    SETTLED = 2000,    /* a way that has lasted so long stays */
    LOOKED = 250,      /* whether own addresses have changed */
    WRAPPED = 1000,    /* a relay may not have a channel yet for a way that is so new */
    LAST = 200         /* so long servers have to let go of what they hold for a line that is closed */
};

/* .. and none after more than four times that. */
enum { DOUBLED = 2 };

/* Bytes of a datagram: without a channel a relay wraps it in 68 bytes, by IPv6 in 80, and networks carry 1,280. */
enum { SHORT = 1100 };

enum { INBOX = 128, CLOSING = 4, HEAD = 4, SEALED = FAZGROND_DATAGRAM + SEAL_OVERHEAD, ADDRESS = 64, WORD = 256 };

typedef struct way {
    ice *ice; /* null: there is none */
    uint32_t generation, begun, up_at, heard_at, kept_at;
    bool is_up, is_heard, is_settled;
    size_t told; /* how many of its texts are on their way */
} way;

typedef struct datagram {
    size_t length;
    uint8_t bytes[FAZGROND_DATAGRAM];
} datagram;

struct faz_line {
    faz_line_settings settings;
    long process; /* whose it is */
    char stun[ADDRESS], address[FAZ_LINE_RELAYS][ADDRESS], user[FAZ_LINE_RELAYS][WORD], password[FAZ_LINE_RELAYS][WORD];
    seal seal;
    way newest, before; /* `before` was heard; it carries on until the newest is */
    ice *closing[CLOSING];
    bool has_turned, is_asked, was_up, was_blocked; /* is_asked: for signals */
    unsigned tries;                                 /* how many ways were given up since something came */
    uint32_t now, heard_at, sent_at, told_at, looked_at;
    uint64_t addresses;
    faz_line_state counts;
    datagram inbox[INBOX];
    uint32_t first, last;
};

bool faz_line_draw(faz_line_keys *keys) {
    if (sodium_init() < 0)
        return false;
    faz_line_seal_draw(keys->open, keys->secret);
    return true;
}

static uint32_t since(const faz_line *self, uint32_t moment) {
    uint32_t passed = self->now - moment;
    return passed < UINT32_C(1) << 31 ? passed : 0;
}

/* A process that was forked has the same keys and counters: what it sealed could be read beside what this one seals. So the line is closed
 * there, and the sockets, which both have, are left to its owner. */
static bool is_own(const faz_line *self) { return self->process == (long)getpid(); }

/* ---- what comes */

/* Whether bytes are a packet of this library in the name of a machine that isn't at the other end. */
static bool is_misnamed(const faz_line *self, const uint8_t *bytes, size_t length) {
    return !self->settings.any_sender && length > 12 && memcmp(bytes, "FZG", 3) == 0 && bytes[12] != self->settings.other
        && bytes[12] != FAZGROND_NO_MACHINE;
}

static void keep(faz_line *self, const uint8_t *bytes, size_t length) {
    if (is_misnamed(self, bytes, length)) {
        self->counts.misnamed++;
    } else if (self->last - self->first == INBOX) {
        self->counts.dropped++;
    } else {
        datagram *to = &self->inbox[self->last++ % INBOX];
        to->length = length;
        memcpy(to->bytes, bytes, length);
        self->counts.received++;
    }
}

static void came(void *of, ice *from, const uint8_t *bytes, size_t length) {
    faz_line *self = of;
    uint8_t inside[FAZGROND_DATAGRAM];
    switch (length > SEALED ? SEAL_FORGED : faz_line_seal_take(&self->seal, inside, bytes, length)) {
    case SEAL_FORGED: self->counts.forged++; return;
    case SEAL_AGAIN: self->counts.again++; return;
    case SEAL_OK: break;
    }
    self->heard_at = self->now;
    self->was_up = true;
    self->tries = 0;
    if (from == self->newest.ice && !self->newest.is_heard) {
        self->newest.is_heard = true;
        self->newest.heard_at = self->now;
    }
    if (length > SEAL_OVERHEAD)
        keep(self, inside, length - SEAL_OVERHEAD);
}

bool faz_line_receive(faz_line *self, uint8_t *out, size_t room, size_t *length) {
    if (!is_own(self) || self->first == self->last || room < self->inbox[self->first % INBOX].length)
        return false;
    datagram *from = &self->inbox[self->first++ % INBOX];
    *length = from->length;
    memcpy(out, from->bytes, from->length);
    return true;
}

/* ---- what goes */

static bool send_by(way *by, const uint8_t *bytes, size_t length) {
    return by->ice != NULL && by->is_up && faz_line_ice_send(by->ice, bytes, length);
}

static bool has_room(const faz_line *self, const way *by, size_t length) {
    return by->is_up && (length <= SHORT || since(self, by->up_at) >= WRAPPED || faz_line_ice_way(by->ice) != FAZ_LINE_RELAYED);
}

/* By the newest way; until that is heard also by the one before: the other machine takes it once. */
bool faz_line_send(faz_line *self, const uint8_t *bytes, size_t length) {
    uint8_t sealed[SEALED];
    bool by_newest = has_room(self, &self->newest, length);
    bool by_before = !self->newest.is_heard && has_room(self, &self->before, length);
    if (!is_own(self) || length == 0 || length > FAZGROND_DATAGRAM || !(by_newest || by_before))
        return false;
    size_t size = faz_line_seal_put(&self->seal, sealed, bytes, length);
    bool is_sent = by_newest && send_by(&self->newest, sealed, size);
    if (by_before && send_by(&self->before, sealed, size))
        is_sent = true;
    if (is_sent) {
        self->sent_at = self->now;
        self->counts.sent++;
    }
    return is_sent;
}

/* What isn't heard yet needs datagrams of its own: of those that go by both ways one is enough for the other machine. */
static void keep_alive(faz_line *self, way *by) {
    uint32_t quiet = by->is_heard && by == &self->newest ? since(self, self->sent_at) : since(self, by->kept_at);
    uint8_t sealed[SEAL_OVERHEAD];
    if (!by->is_up || quiet < (by->is_heard ? KEPT_ALIVE : HANDED_OVER) || since(self, by->kept_at) < HANDED_OVER)
        return;
    by->kept_at = self->now;
    if (send_by(by, sealed, faz_line_seal_put(&self->seal, sealed, NULL, 0)) && by == &self->newest)
        self->sent_at = self->now;
}

/* ---- ways */

/* Closes a way, by and by. */
static void retire(faz_line *self, way *old) {
    if (old->ice != NULL && !faz_line_ice_close(old->ice)) {
        size_t at = 0;
        while (at + 1 < CLOSING && self->closing[at] != NULL)
            at++;
        if (self->closing[at] != NULL)
            faz_line_ice_drop(self->closing[at]);
        self->closing[at] = old->ice;
    }
    memset(old, 0, sizeof *old);
}

/* Goes on closing; true once all are gone. */
static bool close_more(faz_line *self) {
    bool is_over = true;
    for (size_t at = 0; at < CLOSING; at++) {
        if (self->closing[at] != NULL && faz_line_ice_close(self->closing[at]))
            self->closing[at] = NULL;
        is_over = is_over && self->closing[at] == NULL;
    }
    return is_over;
}

/* Begins to look for the way of a generation, beside the one that was heard. */
static bool begin(faz_line *self, uint32_t generation) {
    ice_settings settings = { .line = &self->settings, .leads = self->settings.me < self->settings.other, .came = came, .of = self };
    if (self->newest.is_heard) {
        retire(self, &self->before);
        self->before = self->newest;
    } else {
        retire(self, &self->newest);
    }
    self->newest = (way){ .ice = faz_line_ice_open(&settings), .generation = generation, .begun = self->now };
    self->told_at = self->now;
    return self->newest.ice != NULL;
}

static void look_at(const faz_line *self, way *of) {
    bool was_up = of->is_up;
    of->is_up = of->ice != NULL && faz_line_ice_look(of->ice) == ICE_THERE;
    if (of->is_up && !was_up)
        of->up_at = self->now;
}

/* Whether there was time enough for the newest way. */
static bool is_tried(const faz_line *self) {
    return since(self, self->newest.begun) >= (uint32_t)TRIED << (self->tries < DOUBLED ? self->tries : DOUBLED);
}

static bool has_moved(faz_line *self) {
    if (since(self, self->looked_at) < LOOKED)
        return false;
    uint64_t addresses = faz_ice_addresses();
    bool has = addresses != self->addresses;
    self->addresses = addresses;
    self->looked_at = self->now;
    return has;
}

/* The newest way wasn't heard in time. There is another try; or none, if the way before is heard after all. */
static void give_up(faz_line *self, bool is_silent) {
    if (is_silent) {
        self->tries++;
        self->was_blocked = self->tries >= DOUBLED;
        begin(self, self->newest.generation + 1);
    } else if (self->before.ice != NULL && self->newest.ice != NULL) {
        uint32_t generation = self->newest.generation;
        retire(self, &self->newest);
        self->newest.generation = generation;
        self->newest.begun = self->now;
    }
}

/* Another way is wanted if this machine has other addresses, or if nothing comes: for a second by one that was heard, and by another
 * one for as long as it is tried. */
static void look_for_another(faz_line *self) {
    const way *newest = &self->newest;
    bool is_silent = since(self, self->heard_at) >= SILENT;
    if (has_moved(self) && since(self, newest->begun) >= APART) {
        begin(self, newest->generation + 1);
    } else if (newest->is_heard && is_silent && since(self, newest->heard_at) >= SILENT) {
        begin(self, newest->generation + 1);
    } else if (!newest->is_heard && is_tried(self)) {
        give_up(self, is_silent);
    }
}

static void tidy(faz_line *self) {
    way *newest = &self->newest;
    if (newest->is_heard && self->before.ice != NULL && since(self, newest->heard_at) >= LATE)
        retire(self, &self->before);
    if (newest->is_heard && newest->is_up && !newest->is_settled && since(self, newest->heard_at) >= SETTLED
        && faz_line_ice_way(newest->ice) != FAZ_LINE_RELAYED) {
        faz_line_ice_settle(newest->ice);
        newest->is_settled = true;
    }
    close_more(self);
}

void faz_line_turn(faz_line *self, uint32_t now) {
    self->now = now;
    if (!is_own(self)) {
        faz_line_seal_close(&self->seal);
        return;
    }
    if (!self->has_turned) {
        self->has_turned = true;
        self->newest.begun = self->heard_at = self->sent_at = self->told_at = self->looked_at = now;
    }
    if (!self->is_asked)
        self->newest.begun = self->heard_at = now;
    for (way *each = &self->newest; each != NULL; each = each == &self->newest ? &self->before : NULL)
        if (each->ice != NULL)
            faz_line_ice_turn(each->ice);
    look_at(self, &self->newest);
    look_at(self, &self->before);
    keep_alive(self, &self->newest);
    keep_alive(self, &self->before);
    look_for_another(self);
    tidy(self);
}

/* ---- signals */

static void put_generation(uint8_t *out, uint32_t generation) {
    for (int at = 0; at < HEAD; at++)
        out[at] = (uint8_t)(generation >> (8 * (HEAD - 1 - at)));
}

static uint32_t generation_of(const uint8_t *bytes) {
    return (uint32_t)bytes[0] << 24 | (uint32_t)bytes[1] << 16 | (uint32_t)bytes[2] << 8 | bytes[3];
}

/* Each way tells its texts, and all of them again until the other machine is heard by it. */
bool faz_line_signal(faz_line *self, uint8_t *out, size_t room, size_t *length) {
    way *newest = &self->newest;
    uint8_t inside[FAZ_LINE_SIGNAL - NOTE_OVERHEAD];
    size_t size = HEAD;
    self->is_asked = true;
    if (!is_own(self) || newest->ice == NULL || newest->is_heard || room < FAZ_LINE_SIGNAL)
        return false;
    if (newest->told > 0 && since(self, self->told_at) >= TOLD_AGAIN) {
        newest->told = 0;
        self->told_at = self->now;
    }
    for (const char *text; (text = faz_line_ice_text(newest->ice, newest->told)) != NULL; newest->told++) {
        size_t more = strlen(text) + 1;
        if (size + more > sizeof inside)
            break;
        memcpy(inside + size, text, more);
        size += more;
    }
    put_generation(inside, newest->generation);
    *length = size == HEAD ? 0 : faz_line_seal_note(&self->seal, out, inside, size);
    return size > HEAD;
}

/* The way that a signal is for; null if it is for none that there is. */
static way *way_for(faz_line *self, uint32_t generation) {
    if (generation > self->newest.generation && since(self, self->newest.begun) >= APART)
        begin(self, generation);
    return generation == self->newest.generation ? &self->newest : generation == self->before.generation ? &self->before : NULL;
}

bool faz_line_signalled(faz_line *self, const uint8_t *bytes, size_t length) {
    uint8_t inside[FAZ_LINE_SIGNAL - NOTE_OVERHEAD];
    if (!is_own(self))
        return false;
    if (length > FAZ_LINE_SIGNAL || length < NOTE_OVERHEAD + HEAD + 1 || !faz_line_seal_read(&self->seal, inside, bytes, length)) {
        self->counts.forged++;
        return false;
    }
    size_t size = length - NOTE_OVERHEAD;
    way *to = way_for(self, generation_of(inside));
    if (to == NULL || to->ice == NULL || inside[size - 1] != 0)
        return true;
    for (size_t at = HEAD; at < size; at += strlen((const char *)inside + at) + 1)
        faz_line_ice_told(to->ice, (const char *)inside + at);
    return true;
}

/* ---- the line */

void faz_line_look(const faz_line *self, faz_line_state *state) {
    const way *by = self->newest.is_up && (self->newest.is_heard || !self->before.is_up) ? &self->newest : &self->before;
    *state = self->counts;
    state->silence = since(self, self->heard_at);
    state->generation = self->newest.generation;
    state->way = by->is_up && is_own(self) ? faz_line_ice_way(by->ice) : FAZ_LINE_NO_WAY;
    state->stage = self->was_up ? (state->silence < SILENT ? FAZ_LINE_UP : FAZ_LINE_SILENT)
        : self->was_blocked     ? FAZ_LINE_BLOCKED
                                : FAZ_LINE_LOOKING;
}

uint64_t faz_line_number(const faz_line *self) { return self->seal.number; }

static bool fits(const char *text, size_t room) { return text != NULL && strlen(text) < room; }

static const char *copy(char *to, const char *text) { return strcpy(to, text); }

bool faz_line_relays(faz_line *self, const faz_line_relay *relays, uint32_t count) {
    if (count > FAZ_LINE_RELAYS)
        return false;
    for (uint32_t at = 0; at < count; at++)
        if (!fits(relays[at].address, ADDRESS) || !fits(relays[at].user, WORD) || !fits(relays[at].password, WORD))
            return false;
    for (uint32_t at = 0; at < count; at++)
        self->settings.relays[at] = (faz_line_relay){ .address = copy(self->address[at], relays[at].address),
                                                      .port = relays[at].port,
                                                      .user = copy(self->user[at], relays[at].user),
                                                      .password = copy(self->password[at], relays[at].password),
                                                      .by_tcp = relays[at].by_tcp };
    self->settings.relay_count = count;
    return true;
}

/* What is wrong with settings; null if they were copied. */
static const char *copied(faz_line *self, const faz_line_settings *settings) {
    if (settings->keys == NULL || settings->their == NULL)
        return "no keys are given";
    if (settings->me >= FAZGROND_MACHINES || settings->other >= FAZGROND_MACHINES || settings->me == settings->other)
        return "the two are not two machines of a match";
    if (settings->stun != NULL && !fits(settings->stun, ADDRESS))
        return "the STUN server's address is too long";
    if (!faz_line_relays(self, settings->relays, settings->relay_count))
        return "there are too many relays, or one has no address, user or password, or one that is too long";
    self->settings.me = settings->me;
    self->settings.other = settings->other;
    self->settings.relay_only = settings->relay_only;
    self->settings.any_sender = settings->any_sender;
    self->settings.stun = settings->stun != NULL ? copy(self->stun, settings->stun) : NULL;
    self->settings.stun_port = settings->stun_port;
    return NULL;
}

/* What is wrong with keys; null if they were taken. */
static const char *keyed(faz_line *self, const faz_line_settings *settings) {
    if (sodium_init() < 0)
        return "the system gives no random numbers";
    if (sodium_is_zero(settings->keys->secret, FAZ_LINE_KEY))
        return "the keys were not drawn, or are another line's";
    bool leads = settings->me < settings->other;
    bool is_open = faz_line_seal_open(&self->seal, leads, settings->keys->open, settings->keys->secret, settings->their);
    sodium_memzero(settings->keys, sizeof *settings->keys);
    return is_open ? NULL : "the other machine's key is none";
}

faz_line *faz_line_open(const faz_line_settings *settings, const char **why) {
    faz_line *self = calloc(1, sizeof *self);
    if (self == NULL) {
        *why = "there is no memory";
        return NULL;
    }
    self->process = (long)getpid();
    *why = copied(self, settings);
    if (*why == NULL)
        *why = keyed(self, settings);
    if (*why == NULL && !begin(self, 1))
        *why = settings->relay_only ? "there is no memory, no socket, or, on a LAN, no relay to hide behind"
                                    : "there is no memory, or no socket";
    if (*why != NULL) {
        faz_line_close(self);
        return NULL;
    }
    self->addresses = faz_ice_addresses();
    return self;
}

static void close_ways(faz_line *self) {
    retire(self, &self->newest);
    retire(self, &self->before);
    for (int waited = 0; !close_more(self) && waited < LAST; waited++)
        faz_ice_wait();
    for (size_t at = 0; at < CLOSING; at++)
        if (self->closing[at] != NULL)
            faz_line_ice_drop(self->closing[at]);
}

void faz_line_close(faz_line *self) {
    if (self == NULL)
        return;
    if (is_own(self))
        close_ways(self);
    faz_line_seal_close(&self->seal);
    free(self);
}
