/* Makes the files of a broker with an operator, at which each machine has an inbox that nobody else hears. `usage` says how it is begun. */
#define _POSIX_C_SOURCE 200809L
#include "../../lib/lobby/pass.h"

#include "../common/options.h"

#include <errno.h>
#include <fcntl.h>
#include <sodium.h>
#include <stdio.h>
#include <string.h>
#include <sys/stat.h>
#include <unistd.h>

static const char usage[] =
    "faz-operator FOLDER [PASS]    makes files of a broker whose machines have inboxes of their own (docs/ONLINE.md), and prints its pass\n"
    "  FOLDER/broker.jwt.conf    what server/broker.conf includes: put that beside it\n"
    "  FOLDER/door.creds         by which the door is let in (faz-door --creds): who has it can be the door\n"
    "  FOLDER/pass               what is before the @ in the broker's URL: all players have it\n"
    "With PASS, which may be of another folder, the others are made anew for it: players go on with the URL that they have, and a door\n"
    "by the file from before isn't let in any more. Nothing is written over.\n";

enum { CLAIMS = 2048, TEXT = 4096, PATH = 4096 };

/* Of accounts. Nobody is let in without a key of its own, and no other broker comes in as a leaf of this one. */
#define LIMITS \
    "\"limits\":{\"subs\":-1,\"data\":-1,\"payload\":-1,\"imports\":-1,\"exports\":-1,\"wildcards\":true,\"conn\":-1,\"leaf\":0," \
    "\"disallow_bearer\":true}"

/* What all may who have the pass. In `.door` of its inbox a machine hears what only the door can say. */
#define RIGHTS \
    "\"pub\":{\"allow\":[\"faz.in.*\",\"faz.meet.*\",\"faz.door\"]}," \
    "\"sub\":{\"allow\":[\"faz.in.{{subject()}}\",\"faz.in.{{subject()}}.door\",\"faz.meet.*\"]}," \
    "\"subs\":8,\"data\":-1,\"payload\":8192,\"allowed_connection_types\":[\"STANDARD\",\"WEBSOCKET\"]"

/* What the door may: to hear what it is asked, and to answer once, within ten seconds. */
#define DOOR_RIGHTS \
    "\"pub\":{},\"sub\":{\"allow\":[\"faz.door\"]},\"resp\":{\"max\":1,\"ttl\":10000000000},\"subs\":8,\"data\":-1,\"payload\":8192"

static struct {
    const char *folder;
    nkey operator, door, door_user;
    uint8_t system[NKEY]; /* nobody has the key to it: no user hears what a broker tells of itself */
    pass pass;
} self;

static int fail(const char *why, const char *of) {
    fprintf(stderr, "faz-operator: %s%s\n", of, why);
    return 1;
}

/* ---- claims */

static const char *text_of(nkey_kind kind, const uint8_t open[NKEY], char out[NKEY_TEXT]) {
    faz_nkey_write(kind, open, out);
    return out;
}

/* Signs claims of somebody, of which `more` is what is in "nats". */
static void sign(const nkey *signer, const char *name, const char *whose, const char *more, char out[TEXT]) {
    char claims[CLAIMS], issuer[NKEY_TEXT];
    snprintf(claims, sizeof claims, "{\"iss\":\"%s\",\"name\":\"%s\",\"sub\":\"%s\",\"nats\":{%s,\"version\":2}}",
             text_of(signer->kind, signer->open, issuer), name, whose, more);
    faz_token_sign(signer, claims, out, TEXT);
}

static void write_operator(FILE *to) {
    char key[NKEY_TEXT], token[TEXT];
    sign(&self.operator, "faz", text_of(NKEY_OPERATOR, self.operator.open, key), "\"type\":\"operator\"", token);
    fprintf(to, "operator: \"%s\"\n", token);
    fprintf(to, "system_account: %s\nresolver: MEMORY\nresolver_preload: {\n", text_of(NKEY_ACCOUNT, self.system, key));
}

static void write_account(FILE *to, const char *name, const uint8_t open[NKEY], const char *more) {
    char key[NKEY_TEXT], token[TEXT];
    sign(&self.operator, name, text_of(NKEY_ACCOUNT, open, key), more, token);
    fprintf(to, "    %s: \"%s\" # %s\n", key, token, name);
}

/* The door is told the address of who asks it, since what it says to players is shared with it. */
static void write_broker(FILE *to) {
    char more[CLAIMS], door[NKEY_TEXT], signer[NKEY_TEXT];
    fputs("# Made by faz-operator: nothing in it is secret.\n", to);
    write_operator(to);
    write_account(to, "SYSTEM", self.system, LIMITS ",\"type\":\"account\"");
    write_account(to, "DOOR", self.door.open,
                  LIMITS ",\"exports\":[{\"name\":\"door\",\"subject\":\"faz.door\",\"type\":\"service\"}],\"type\":\"account\"");
    snprintf(more, sizeof more,
             LIMITS ",\"imports\":[{\"name\":\"door\",\"subject\":\"faz.door\",\"account\":\"%s\",\"type\":\"service\",\"share\":true}],"
                    "\"signing_keys\":[{\"kind\":\"user_scope\",\"key\":\"%s\",\"role\":\"player\",\"template\":{" RIGHTS "}}],"
                    "\"type\":\"account\"",
             text_of(NKEY_ACCOUNT, self.door.open, door), text_of(NKEY_ACCOUNT, self.pass.signer.open, signer));
    write_account(to, "PLAYERS", self.pass.account, more);
    fputs("}\n", to);
}

static void write_creds(FILE *to) {
    char user[NKEY_TEXT], token[TEXT], seed[SEED_TEXT];
    sign(&self.door, "door", text_of(NKEY_USER, self.door_user.open, user), DOOR_RIGHTS ",\"type\":\"user\"", token);
    faz_nkey_write_seed(&self.door_user, seed);
    fprintf(to, "-----BEGIN NATS USER JWT-----\n%s\n------END NATS USER JWT------\n\n", token);
    fprintf(to, "-----BEGIN USER NKEY SEED-----\n%s\n------END USER NKEY SEED------\n", seed);
    sodium_memzero(seed, sizeof seed);
}

static void write_pass(FILE *to) {
    char text[PASS_TEXT];
    faz_pass_write(&self.pass, text);
    fprintf(to, "%s\n", text);
}

/* ---- files */

typedef struct file {
    const char *name;
    void (*write)(FILE *to);
} file;

static const file FILES[] = { { "broker.jwt.conf", write_broker }, { "door.creds", write_creds }, { "pass", write_pass } };

enum { FILE_COUNT = sizeof FILES / sizeof *FILES };

/* False: the path is too long. */
static bool path_of(const file *one, char out[PATH]) { return snprintf(out, PATH, "%s/%s", self.folder, one->name) < PATH; }

/* Null, or what is in the way. */
static const char *in_the_way(char path[PATH]) {
    struct stat is;
    for (size_t at = 0; at < FILE_COUNT; at++)
        if (!path_of(&FILES[at], path))
            return ": it is too long";
        else if (lstat(path, &is) == 0)
            return " is there already";
    return NULL;
}

static bool write_file(const file *one) {
    char path[PATH];
    int number = path_of(one, path) ? open(path, O_WRONLY | O_CREAT | O_EXCL, 0600) : -1;
    FILE *to = number >= 0 ? fdopen(number, "w") : NULL;
    if (to == NULL)
        return false;
    one->write(to);
    bool is_good = !ferror(to);
    return fclose(to) == 0 && is_good;
}

/* The keys of the operator and of its accounts sign once, here, and are forgotten then. */
static bool draw(const char *text) {
    nkey players, system;
    faz_nkey_draw(&self.operator, NKEY_OPERATOR);
    faz_nkey_draw(&self.door, NKEY_ACCOUNT);
    faz_nkey_draw(&self.door_user, NKEY_USER);
    faz_nkey_draw(&system, NKEY_ACCOUNT);
    memcpy(self.system, system.open, NKEY);
    if (text != NULL)
        return faz_pass_read(&self.pass, text, strlen(text));
    faz_nkey_draw(&players, NKEY_ACCOUNT);
    memcpy(self.pass.account, players.open, NKEY);
    faz_nkey_draw(&self.pass.signer, NKEY_ACCOUNT);
    sodium_memzero(&players, sizeof players);
    return true;
}

int main(int count, char **words) {
    char path[PATH];
    const char *why;
    if (is_help(words, usage))
        return 0;
    if (count < 2 || count > 3 || words[1][0] == '-' || words[1][0] == 0) {
        fputs(usage, stderr);
        return 2;
    }
    if (sodium_init() < 0)
        return fail("the system gives no random numbers", "");
    self.folder = words[1];
    umask(077);
    if (!draw(words[2]))
        return fail("the pass can't be read: a sign of it may be wrong or missing", "");
    if (mkdir(self.folder, 0700) != 0 && errno != EEXIST)
        return fail(": it can't be made", self.folder);
    if ((why = in_the_way(path)) != NULL)
        return fail(why, path);
    for (size_t at = 0; at < FILE_COUNT; at++)
        if (!write_file(&FILES[at]))
            return fail(": a file can't be written there", self.folder);
    write_pass(stdout);
    sodium_memzero(&self, sizeof self);
    return fflush(stdout) != 0;
}
