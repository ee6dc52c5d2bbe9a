/* A line between two machines of a match, over the internet or a LAN: it finds a way, directly where routers let it and else by a
 * relay, hides what is sent, and finds another way when the one it has breaks. It starts no thread, and no call waits: call
 * faz_line_turn once a turn, as the game goes.
 *
 *     faz_line_keys keys;
 *     faz_line_draw(&keys);                          // and give keys.open to the other machine, as its keys.open to this one
 *     line = faz_line_open(&settings, &why);
 *     ..
 *     faz_line_turn(line, now);
 *     while (faz_line_signal(line, bytes, sizeof bytes, &length)) ..   // carry it to the other machine: faz_line_signalled there
 *     while (faz_line_receive(line, bytes, sizeof bytes, &length))
 *         fazgrond_peer_receive(&peer, &session, bytes, length, now);
 *     .. faz_line_send(line, bytes, length);         // what fazgrond_peer_send made
 *
 * Whoever carries the signals can lose and delay them, and can't read or change them. But the open keys have to come from the right
 * machine: who can change them on their way can be either of the two to the other.
 *
 * A line is closed in a process that was forked: it sends nothing there, and takes nothing. A virtual machine that is set back to a
 * snapshot would seal by numbers that it has used, and whoever recorded both can read them: close its lines there, and open others. */
#ifndef FAZ_LINE_H
#define FAZ_LINE_H

#include <fazgrond.h>
#include <stdbool.h>

#ifdef __cplusplus
extern "C" {
#endif

typedef struct faz_line faz_line;

enum { FAZ_LINE_KEY = 32, FAZ_LINE_SIGNAL = 1024, FAZ_LINE_RELAYS = 8 };

/* What this machine draws for a line, anew for each. */
typedef struct faz_line_keys {
    uint8_t open[FAZ_LINE_KEY];   /* for the other machine */
    uint8_t secret[FAZ_LINE_KEY]; /* for nobody */
} faz_line_keys;

/* A TURN server. Addresses are numbers with dots or colons: a name is for you to look up, which may wait. If it has an address of IPv4
 * and one of IPv6, name it twice: a machine asks by those that it has itself. One with IPv6 alone and one with IPv4 alone are joined by
 * nothing but a relay that has both. */
typedef struct faz_line_relay {
    const char *address;
    uint16_t port;
    const char *user, *password;
    bool by_tcp; /* it is asked by TCP, for networks that let no UDP out */
} faz_line_relay;

/* Set it to zeros first. All that it points at is copied. */
typedef struct faz_line_settings {
    uint32_t me, other;   /* machines of the match */
    faz_line_keys *keys;  /* this machine's; they are set to zeros, since of a second line with them and the same `their` whoever recorded
                           * both could read datagrams */
    const uint8_t *their; /* the open key of the other machine */
    const char *stun;     /* the address of a STUN server, which tells a machine how the internet sees it; or null. If it has one of
                           * IPv4, that: by IPv6 few machines are seen otherwise than they see themselves */
    uint16_t stun_port;
    faz_line_relay relays[FAZ_LINE_RELAYS];
    uint32_t relay_count;
    bool relay_only; /* the other machine isn't to see this one's address: it is told of places on relays alone */
    bool any_sender; /* packets of this library are taken whatever sender they name: see faz_line_receive */
} faz_line_settings;

typedef enum faz_line_way { FAZ_LINE_NO_WAY, FAZ_LINE_LAN, FAZ_LINE_DIRECT, FAZ_LINE_RELAYED } faz_line_way;

typedef enum faz_line_stage {
    FAZ_LINE_LOOKING, /* for a first way */
    FAZ_LINE_UP,
    FAZ_LINE_SILENT, /* nothing has come for a second: another way is looked for */
    FAZ_LINE_BLOCKED /* no first way was found; it is looked for again and again */
} faz_line_stage;

typedef struct faz_line_state {
    faz_line_stage stage;
    faz_line_way way;        /* by which datagrams go now */
    uint32_t generation;     /* the newest way: 1 is the first */
    uint32_t silence;        /* for how many milliseconds nothing has come */
    uint64_t sent, received; /* datagrams of the game */
    uint64_t forged;         /* what came that the other machine didn't seal */
    uint64_t again;          /* what it sealed, but came before or over 1,024 datagrams late */
    uint64_t misnamed;       /* packets of this library that name another sender than the other machine */
    uint64_t dropped;        /* what you didn't fetch in time */
} faz_line_state;

/* Draws keys. False: the system gives no random numbers. */
bool faz_line_draw(faz_line_keys *keys);

/* Opens a line. Null if the settings are no good or there is no memory: `why` says so in words. */
faz_line *faz_line_open(const faz_line_settings *settings, const char **why);

/* Closes it, and sets its keys to zeros. It may take 0.2 seconds if relays have to be told. Null is none. */
void faz_line_close(faz_line *line);

/* Once a turn. `now` is the time in milliseconds, which begins anew after 2^32. */
void faz_line_turn(faz_line *line, uint32_t now);

/* Relays for the ways that are looked for from now on: call it before the passwords of those before end. False: they are no good, and
 * those before stay. */
bool faz_line_relays(faz_line *line, const faz_line_relay *relays, uint32_t count);

/* The next signal to carry to the other machine, in `out`, which has room for FAZ_LINE_SIGNAL bytes. False: there is none now.
 *
 * A line that isn't asked for signals yet asks servers how the internet sees this machine, and for places on relays, and waits: so it
 * may be opened before the other machine can be told anything. It sends that one nothing until then. */
bool faz_line_signal(faz_line *line, uint8_t *out, size_t room, size_t *length);

/* Takes a signal of the other machine's. False: it made no such signal. */
bool faz_line_signalled(faz_line *line, const uint8_t *bytes, size_t length);

/* Sends a datagram of FAZGROND_DATAGRAM bytes at most. False: there is no way now, or it is full, or it leads by a relay for less
 * than a second and takes no more than 1,100 bytes; the datagram is lost. */
bool faz_line_send(faz_line *line, const uint8_t *bytes, size_t length);

/* The next datagram that came, in `out`, which has room for FAZGROND_DATAGRAM bytes. False: there is none. A packet of this
 * library says that it was sent by the other machine, or by no machine (a viewer's line). With `any_sender` it may name any machine: what
 * lib/rejoin sends does, and a spectator's line of GGPO's calls. Whether a packet for the match names one that sits at the other end is
 * for you to see then, as lib/ggponet does. */
bool faz_line_receive(faz_line *line, uint8_t *out, size_t room, size_t *length);

void faz_line_look(const faz_line *line, faz_line_state *state);

/* A number that only the two machines know: that of the pair in fazgrond_match's `numbers`. */
uint64_t faz_line_number(const faz_line *line);

#ifdef __cplusplus
}
#endif
#endif
