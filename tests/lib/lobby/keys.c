/* What follows from a host's key, what two machines seal, and what a command line says of servers: keys HOST CODE ROOM KEY, as code.py
 * prints them. keys code: a code that is good, and nobody's. */
#include "../../../lib/lobby/keys.h"
#include "../../../lib/lobby/messages.h"
#include "../../../lib/lobby/words.h"
#include "../../check.h"

#include <sodium.h>
#include <stdio.h>
#include <stdlib.h>
#include <string.h>

/* What Python made of the key is made here too. */
static void check_code(char **words) {
    uint8_t host[KEY], code[CODE_BYTES], read[CODE_BYTES];
    char text[CODE_TEXT], digits[2 * KEY + 1];
    room in;
    CHECK_SAY(sodium_hex2bin(host, KEY, words[1], strlen(words[1]), NULL, NULL, NULL) == 0, "the host's key is one");
    faz_code_of(code, host);
    faz_code_write(code, text);
    faz_room_of(&in, code);
    CHECK_SAY(strcmp(text, words[2]) == 0, "%s", text);
    CHECK_SAY(strcmp(in.name, words[3]) == 0, "%s", in.name);
    CHECK_SAY(strcmp(sodium_bin2hex(digits, sizeof digits, in.key, KEY), words[4]) == 0, "%s", digits);
    CHECK_SAY(faz_code_read(words[2], read) && memcmp(read, code, CODE_BYTES) == 0, "the code is read");
}

/* As a friend may write it. */
static void check_spelling(const char *text) {
    uint8_t code[CODE_BYTES], read[CODE_BYTES];
    char other[4 * CODE_TEXT];
    size_t length = 0;
    CHECK_SAY(faz_code_read(text, code), "a code");
    for (const char *at = text; *at != 0; at++) {
        other[length++] = ' ';
        other[length++] = *at >= 'A' && *at <= 'Z' ? (char)(*at - 'A' + 'a') : *at == '0' ? 'o' : *at == '1' ? 'l' : *at;
    }
    other[length++] = '\n';
    other[length] = 0;
    CHECK_SAY(faz_code_read(other, read) && memcmp(read, code, CODE_BYTES) == 0,
              "small letters, spaces, and letters that look like digits");
}

/* A sign too few or too many, other bytes, and for each place every other sign, and each two neighbours the other way round. */
static void check_slips(const char *text) {
    static const char signs[] = "0123456789ABCDEFGHJKMNPQRSTVWXYZ";
    uint8_t read[CODE_BYTES];
    char other[CODE_TEXT + 1];
    int taken = 0;
    for (size_t at = 0; at < strlen(text); at++)
        for (size_t sign = 0; sign < strlen(signs) && text[at] != '-'; sign++) {
            strcpy(other, text);
            other[at] = signs[sign];
            taken += signs[sign] != text[at] && faz_code_read(other, read);
        }
    for (size_t at = 0; at + 1 < strlen(text); at++) {
        strcpy(other, text);
        other[at] = text[at + 1];
        other[at + 1] = text[at];
        taken += text[at] != text[at + 1] && text[at] != '-' && text[at + 1] != '-' && faz_code_read(other, read);
    }
    CHECK_SAY(taken <= 2, "of 868 codes with one wrong sign, and 23 with two changed, hardly one is taken");
    snprintf(other, sizeof other, "%s0", text);
    CHECK_SAY(!faz_code_read(other, read), "a sign too many");
    snprintf(other, sizeof other, "%s", text + 1);
    CHECK_SAY(!faz_code_read(other, read), "a sign too few");
    CHECK_SAY(!faz_code_read("", read) && !faz_code_read("\xc3\xa9", read) && !faz_code_read("U", read), "no code");
}

static void draw_pair(pair *one, pair *other, const room *in) {
    uint8_t open[2][KEY], secret[2][KEY];
    crypto_kx_keypair(open[0], secret[0]);
    crypto_kx_keypair(open[1], secret[1]);
    CHECK_SAY(faz_pair_of(one, in, open[0], secret[0], open[1]) && faz_pair_of(other, in, open[1], secret[1], open[0]), "a pair");
}

/* What one seals the other opens; nobody takes its own, another kind, another pair's or room's, or one with a bit changed. */
static void check_pairs(const room *in, const room *elsewhere) {
    pair one, other, third, fourth;
    uint8_t text[] = "a play", sealed[sizeof text + SEAL], out[sizeof text];
    char words[2][WORDS];
    draw_pair(&one, &other, in);
    draw_pair(&third, &fourth, in);
    faz_pair_seal(&one, sealed, 'x', text, sizeof text);
    CHECK_SAY(faz_pair_open(&other, out, 'x', sealed, sizeof sealed) && memcmp(out, text, sizeof text) == 0, "the other one opens it");
    CHECK_SAY(!faz_pair_open(&one, out, 'x', sealed, sizeof sealed), "who made it doesn't take it back");
    CHECK_SAY(!faz_pair_open(&other, out, 'y', sealed, sizeof sealed), "another kind");
    CHECK_SAY(!faz_pair_open(&third, out, 'x', sealed, sizeof sealed) && !faz_pair_open(&fourth, out, 'x', sealed, sizeof sealed),
              "others");
    CHECK_SAY(!faz_room_open(in, out, 'x', sealed, sizeof sealed), "who has the code alone");
    for (size_t at = 0; at < 8 * sizeof sealed; at++) {
        sealed[at / 8] ^= (uint8_t)(1 << at % 8);
        CHECK_SAY(!faz_pair_open(&other, out, 'x', sealed, sizeof sealed), "a changed bit");
        sealed[at / 8] ^= (uint8_t)(1 << at % 8);
    }
    faz_pair_words(&one, words[0]);
    faz_pair_words(&other, words[1]);
    CHECK_SAY(strcmp(words[0], words[1]) == 0 && strlen(words[0]) == 9, "both see the same signs");
    faz_pair_words(&third, words[1]);
    CHECK_SAY(strcmp(words[0], words[1]) != 0, "other pairs see others");
    faz_room_seal(in, sealed, 'x', text, sizeof text);
    CHECK_SAY(faz_room_open(in, out, 'x', sealed, sizeof sealed) && !faz_room_open(in, out, 'y', sealed, sizeof sealed),
              "all who have the code");
    CHECK_SAY(!faz_room_open(elsewhere, out, 'x', sealed, sizeof sealed), "who has another code");
}

/* The zero key, and points of small order, give no pair. */
static void check_bad_keys(const room *in) {
    uint8_t open[KEY], secret[KEY], bad[KEY] = { 0 };
    pair one;
    crypto_kx_keypair(open, secret);
    CHECK_SAY(!faz_pair_of(&one, in, open, secret, bad), "a key of zeros");
    bad[0] = 1;
    CHECK_SAY(!faz_pair_of(&one, in, open, secret, bad), "a key of small order");
}

static void check_vouching(void) {
    uint8_t open[KEY], secret[SECRET], other[KEY], speaks[KEY], proof[PROOF];
    faz_host_draw(open, secret);
    randombytes_buf(speaks, KEY);
    faz_host_vouch(proof, secret, speaks);
    CHECK_SAY(faz_host_vouched(proof, open, speaks), "the host's word");
    faz_host_draw(other, secret);
    CHECK_SAY(!faz_host_vouched(proof, other, speaks), "another host's");
    speaks[7] ^= 1;
    CHECK_SAY(!faz_host_vouched(proof, open, speaks), "for another key");
}

/* So many keys that were here are known, and the oldest one is forgotten then. */
static void check_seen(void) {
    static seen_keys seen;
    uint8_t open[KEY] = { 0 }, first[KEY] = { 0 };
    CHECK_SAY(!faz_seen_has(&seen, open), "no key was here");
    for (uint32_t at = 0; at < 4096; at++) {
        memcpy(open, &at, sizeof at);
        faz_seen_note(&seen, open);
    }
    CHECK_SAY(faz_seen_has(&seen, open) && faz_seen_has(&seen, first), "4,096 keys");
    open[KEY - 1] = 1;
    CHECK_SAY(!faz_seen_has(&seen, open), "another one");
    faz_seen_note(&seen, open);
    CHECK_SAY(faz_seen_has(&seen, open) && !faz_seen_has(&seen, first), "and then the first one is forgotten");
}

/* A table comes back as it was, and none is read whose places don't hold together, or that was cut short. */
static void check_tables(const room *in) {
    static answer written, came;
    uint8_t message[BROKER_MESSAGE];
    pair host, joins;
    draw_pair(&host, &joins, in);
    written = (answer){ .counter = 3, .what = BEGINS, .name = "Ann" };
    table *text = &written.table;
    *text = (table){ .me = 1, .machines = 8, .players = 8, .number = 77, .common_length = FAZ_LOBBY_COMMON };
    randombytes_buf(text->common, FAZ_LOBBY_COMMON);
    for (uint32_t at = 0; at < 8; at++) {
        text->owners[at] = at;
        snprintf(text->member[at].name, FAZ_LOBBY_NAME_ROOM, "player %u with the longest nam", at);
        randombytes_buf(text->member[at].open, KEY);
        randombytes_buf(text->member[at].inbox, INBOX);
    }
    size_t length = faz_answer_write(&written, &host, message);
    CHECK_SAY(length < BROKER_MESSAGE && faz_answer_read(&came, &joins, message, length), "the longest answer");
    CHECK_SAY(came.counter == 3 && came.what == BEGINS && strcmp(came.name, "Ann") == 0 && came.table.me == 1 && came.table.number == 77
                  && memcmp(came.table.owners, text->owners, sizeof text->owners) == 0
                  && memcmp(came.table.member, text->member, sizeof text->member) == 0
                  && memcmp(came.table.common, text->common, FAZ_LOBBY_COMMON) == 0,
              "it is read as it was written");
    text->owners[3] = 8;
    CHECK_SAY(!faz_answer_read(&came, &joins, message, faz_answer_write(&written, &host, message)), "a player of no machine");
    text->owners[3] = 3;
    text->me = 8;
    CHECK_SAY(!faz_answer_read(&came, &joins, message, faz_answer_write(&written, &host, message)), "a place that isn't there");
    text->me = 1;
    text->players = 7;
    CHECK_SAY(!faz_answer_read(&came, &joins, message, faz_answer_write(&written, &host, message)), "an owner of no player");
    text->players = 8;
    member one = text->member[7];
    memcpy(text->member[7].open, text->member[2].open, KEY);
    CHECK_SAY(!faz_answer_read(&came, &joins, message, faz_answer_write(&written, &host, message)), "a key of two machines");
    text->member[7] = one;
    for (size_t cut = 0; cut < length; cut++)
        CHECK_SAY(!faz_answer_read(&came, &joins, message, cut), "cut short");
}

static void check_name(const char *given, const char *due) {
    char name[FAZ_LOBBY_NAME_ROOM];
    faz_name_clean(name, given);
    CHECK_SAY(strcmp(name, due) == 0, "%s", name);
}

/* Where a server is, as a command line says it; null: it says it of none. */
static void check_server(const char *said, const char *address, uint16_t port) {
    char relay[LOBBY_WORDS_ROOM];
    snprintf(relay, sizeof relay, "17:friends:x@%s", said);
    lobby_words words = { .broker = "nats://[2001:db8::10]:4222", .stun = said }, with_relay = { .broker = words.broker, .relay = relay };
    faz_lobby_settings stun = { 0 }, settings = { 0 };
    bool is_read = faz_lobby_words_read(&words, &stun) == NULL;
    CHECK_SAY(is_read == (faz_lobby_words_read(&with_relay, &settings) == NULL) && is_read == (address != NULL), "%s", said);
    if (!is_read || address == NULL)
        return;
    CHECK_SAY(strcmp(stun.stun, address) == 0 && stun.stun_port == port, "%s", said);
    CHECK_SAY(settings.relay_count == 1 && strcmp(settings.relays[0].address, address) == 0 && settings.relays[0].port == port
                  && strcmp(settings.relays[0].user, "17:friends") == 0 && strcmp(settings.relays[0].password, "x") == 0,
              "%s", relay);
}

static void check_servers(void) {
    check_server("203.0.113.10", "203.0.113.10", 3478);
    check_server("203.0.113.10:5349", "203.0.113.10", 5349);
    check_server("relay.example.org:1", "relay.example.org", 1);
    check_server("[2001:db8::10]:65535", "2001:db8::10", 65535);
    check_server("[2001:db8::10]", "2001:db8::10", 3478);
    check_server("2001:db8::10", "2001:db8::10", 3478);
    check_server("::1", "::1", 3478);
    const char *const bad[] = {
        "",        ":3478",         "203.0.113.10:",      "203.0.113.10:0",  "203.0.113.10:65536", "203.0.113.10:34x",
        "[]:3478", "[2001:db8::10", "[2001:db8::10]3478", "[2001:db8::10]:", "[2001:db8::10]:-1",  "[2001:db8::10]:34:78"
    };
    for (size_t at = 0; at < sizeof bad / sizeof *bad; at++)
        check_server(bad[at], NULL, 0);
}

/* A host's player reads why a code is another one. */
static void check_told(faz_lobby_why why, const char *due) {
    faz_lobby_event event = { .what = FAZ_LOBBY_CODE, .why = why, .text = "KXQ-4H7P" };
    char text[FAZ_LOBBY_TEXT_ROOM];
    faz_lobby_words_of(NULL, &event, text, sizeof text);
    CHECK_SAY(strcmp(text, due) == 0, "%s", text);
}

static int say_code(void) {
    uint8_t code[CODE_BYTES];
    char text[CODE_TEXT];
    randombytes_buf(code, CODE_BYTES);
    faz_code_write(code, text);
    puts(text);
    return 0;
}

int main(int count, char **words) {
    room in, elsewhere;
    uint8_t code[CODE_BYTES];
    if (count == 2 && sodium_init() >= 0)
        return say_code();
    if (count != 5 || sodium_init() < 0)
        return 2;
    check_code(words);
    check_spelling(words[2]);
    check_slips(words[2]);
    randombytes_buf(code, CODE_BYTES);
    faz_room_of(&in, code);
    randombytes_buf(code, CODE_BYTES);
    faz_room_of(&elsewhere, code);
    check_pairs(&in, &elsewhere);
    check_bad_keys(&in);
    check_vouching();
    check_seen();
    check_tables(&in);
    check_servers();
    check_told(FAZ_LOBBY_NO_REASON, "the code is KXQ-4H7P");
    check_told(FAZ_LOBBY_WRONG_CODE, "wrong codes were tried, so the code is another one: KXQ-4H7P");
    check_name("Zo\xc3\xab", "Zo\xc3\xab");
    check_name("a\x1b[2Jb\n", "a?[2Jb?");
    check_name("\xff\xc3", "??");
    check_name("\xc2\x9b"
               "31m",
               "??31m");
    check_name("0123456789012345678901234567890123", "0123456789012345678901234567890");
    check_name("012345678901234567890123456789\xc3\xab", "012345678901234567890123456789");
    return checks_end();
}
