/* Passes, the keys in them and what a user shows: pass SEED ACCOUNT USER PASS TOKEN, of which the first three are 64 digits each, and the
 * others are what pass.py made of them. */
#include "../../../lib/lobby/pass.h"
#include "../../check.h"

#include <sodium.h>
#include <stdio.h>
#include <string.h>

static bool read_digits(const char *text, uint8_t bytes[NKEY]) {
    size_t size = 0;
    return sodium_hex2bin(bytes, NKEY, text, strlen(text), NULL, &size, NULL) == 0 && size == NKEY;
}

/* The keys of NATS' own documentation, and RFC 8032's first one. */
static void check_published(void) {
    static const char seed_text[] = "SUACSSL3UAHUDXKFSNVUZRF5UHPMWZ6BFDTJ7M6USDXIEDNPPQYYYCU3VY";
    static const char key_text[] = "UDXU4RCSJNZOIQHZNWXHXORDPRTGNJAHAHFRGZNEEJCPQTT2M7NLCNF4";
    uint8_t seed[NKEY], open[NKEY], read[NKEY];
    char text[SEED_TEXT];
    nkey key;
    CHECK_SAY(faz_nkey_read_seed(&key, NKEY_USER, seed_text, strlen(seed_text)), "a seed");
    faz_nkey_write_seed(&key, text);
    CHECK_SAY(strcmp(text, seed_text) == 0, "%s", text);
    faz_nkey_write(NKEY_USER, key.open, text);
    CHECK_SAY(strcmp(text, key_text) == 0, "%s", text);
    CHECK_SAY(faz_nkey_read(NKEY_USER, key_text, strlen(key_text), read) && memcmp(read, key.open, NKEY) == 0, "a key");
    CHECK_SAY(!faz_nkey_read(NKEY_ACCOUNT, key_text, strlen(key_text), read)
                  && !faz_nkey_read_seed(&key, NKEY_ACCOUNT, seed_text, strlen(seed_text)),
              "one of another kind");
    read_digits("9d61b19deffd5a60ba844af492ec2cc44449c5697b326919703bac031cae7f60", seed);
    read_digits("d75a980182b10ab7d54bfed3c964073a0ee172f3daa62325af021a68f707511a", open);
    faz_nkey_of_seed(&key, NKEY_USER, seed);
    CHECK_SAY(memcmp(key.open, open, NKEY) == 0, "a key of RFC 8032");
}

/* Python made the same pass, and the same token. */
static void check_made(char **words) {
    uint8_t seed[NKEY];
    char text[PASS_TEXT], token[TOKEN_TEXT];
    pass self, came;
    nkey user;
    CHECK_SAY(read_digits(words[1], seed) && read_digits(words[2], self.account), "digits");
    faz_nkey_of_seed(&self.signer, NKEY_ACCOUNT, seed);
    CHECK_SAY(read_digits(words[3], seed), "digits");
    faz_nkey_of_seed(&user, NKEY_USER, seed);
    faz_pass_write(&self, text);
    CHECK_SAY(strcmp(text, words[4]) == 0, "%s", text);
    CHECK_SAY(faz_pass_read(&came, text, strlen(text)) && memcmp(&came.signer.secret, &self.signer.secret, NKEY_SECRET) == 0
                  && memcmp(came.account, self.account, NKEY) == 0,
              "it is read as it was written");
    faz_pass_token(&came, &user, token);
    CHECK_SAY(strcmp(token, words[5]) == 0, "%s", token);
}

/* With each sign another one, with two the other way round, and with one too many or too few it is none. */
static void check_slips(const char *text) {
    static const char signs[] = "ABCDEFGHIJKLMNOPQRSTUVWXYZ234567abcdefghijklmnopqrstuvwxyz0189-_ \n=@";
    char other[PASS_TEXT + 1];
    pass came;
    size_t length = strlen(text), taken = 0;
    for (size_t at = 0; at < length * (sizeof signs - 1); at++) {
        size_t place = at / (sizeof signs - 1);
        strcpy(other, text);
        other[place] = signs[at % (sizeof signs - 1)];
        taken += other[place] != text[place] && faz_pass_read(&came, other, length);
    }
    CHECK_SAY(taken == 0, "another sign");
    for (size_t at = 0; at + 1 < length; at++) {
        strcpy(other, text);
        other[at] = text[at + 1];
        other[at + 1] = text[at];
        taken += text[at] != text[at + 1] && faz_pass_read(&came, other, length);
    }
    CHECK_SAY(taken == 0, "two signs the other way round");
    for (size_t cut = 0; cut < length; cut++)
        taken += faz_pass_read(&came, text, cut) || faz_pass_read(&came, text + length - cut, cut);
    snprintf(other, sizeof other, "%sA", text);
    CHECK_SAY(taken == 0 && !faz_pass_read(&came, other, length + 1), "too short, or too long");
    strcpy(other, text);
    other[3] = 0;
    CHECK_SAY(!faz_pass_read(&came, other, length), "a text that ends in it");
}

/* There is room for what is longest, and no byte is written behind it. */
static void check_room(void) {
    char out[TOKEN_TEXT], small[TOKEN_TEXT];
    nkey key;
    faz_nkey_draw(&key, NKEY_OPERATOR);
    CHECK_SAY(faz_token_sign(&key, "{}", out, sizeof out), "a token");
    for (size_t room = 1; room <= strlen(out); room++)
        CHECK_SAY(!faz_token_sign(&key, "{}", small, room), "a token without room for it");
    CHECK_SAY(faz_token_sign(&key, "{}", small, strlen(out) + 1) && strcmp(out, small) == 0, "a token that just fits");
}

int main(int count, char **words) {
    if (count != 6 || sodium_init() < 0)
        return 2;
    check_published();
    check_made(words);
    check_slips(words[4]);
    check_room();
    return checks_end();
}
