/* The door: a program beside a broker, for codes that are short enough to be typed. `usage` says how it is begun. */
#define _POSIX_C_SOURCE 200809L
#include "../common/options.h"
#include "../../lib/lobby/door.h"
#include "../../lib/lobby/words.h"
#include "budget.h"

#include <glib.h>
#include <nats/nats.h>
#include <sodium.h>
#include <stdio.h>
#include <time.h>

static const char usage[] =
    "faz-door [OPTIONS]    draws short codes, and gives out users of relays, beside a broker (docs/ONLINE.md)\n"
    "  --broker URL         where it is asked (nats://127.0.0.1:4222)\n"
    "  --creds FILE         what faz-operator made for it, by which the broker lets it in. At one of server/open.conf it is the user\n"
    "                       `door`, whose password is in the environment: DOOR_PASSWORD\n"
    "  --trusted FILE       certificates by which that is believed\n"
    "  --stun ADDRESS[:PORT]      --relay ADDRESS[:PORT]  --second ADDRESS[:PORT]    servers as those who ask are told\n"
    "  --secret FILE        that of the relays, with a line static-auth-secret=..\n"
    "  --hours N            a relay's password is good for (8)\n"
    "  --tries N            that an address has in a minute (20), and a wider network 16 or 256 times as many\n";

enum {
    SIGNS = 32,
    PLATES = SIGNS * SIGNS * SIGNS,
    DRAWN = 64,
    PARTS = 4, /* of a wide network: each has a user of the relays */
    MINUTE = 60,
    TEXT = 4096,
    HOST = 64,
    ID = 8,
    WAIT = 1000,
    WAITING = 4096 /* asks at most: what comes then is lost, and asked again */
};

static const char signs[SIGNS + 1] = "0123456789ABCDEFGHJKMNPQRSTVWXYZ";

typedef struct plate {
    uint8_t token[DOOR_TOKEN];
    int64_t until; /* seconds of the clock; before that it is taken */
} plate;

static struct {
    const char *broker, *creds, *trusted, *stun, *relay, *second, *secret_file;
    long hours, tries;
    char secret[DOOR_WORD];
    lobby_words words[2];
    faz_lobby_settings servers[2]; /* as words.h reads them */
    plate plate[PLATES];
    uint8_t id_key[crypto_generichash_KEYBYTES]; /* of the relays' users */
    uint32_t refused;                            /* asks, since that was said */
    int64_t said_at;
    bool has_warned;
} self = { .broker = "nats://127.0.0.1:4222", .hours = 8, .tries = 20 };

static budget budget_of_asks, budget_of_refusals;

static int64_t now_nanos(void) {
    struct timespec time;
    clock_gettime(CLOCK_MONOTONIC, &time);
    return (int64_t)time.tv_sec * 1000000000 + time.tv_nsec;
}

static int64_t now(void) { return now_nanos() / 1000000000; }

/* ---- who asks */

/* The address from which somebody asks, as the broker tells it. */
static void read_host(natsMsg *message, char out[HOST]) {
    const char *info = NULL, *at;
    strcpy(out, "unknown");
    if (natsMsgHeader_Get(message, "Nats-Request-Info", &info) != NATS_OK || (at = strstr(info, "\"host\":\"")) == NULL) {
        if (!self.has_warned)
            fputs("faz-door: the broker doesn't tell who asks: all are counted as one (share: true)\n", stderr);
        self.has_warned = true;
        return;
    }
    at += strlen("\"host\":\"");
    size_t length = strcspn(at, "%\""); /* (behind a % is a device of the broker's) */
    snprintf(out, HOST, "%.*s", (int)(length < HOST ? length : HOST - 1), at);
}

/* Of those who ask too often it is said once in a minute how many they were. */
static void say_refused(void) {
    if (self.refused == 0 || now() - self.said_at < MINUTE)
        return;
    printf("refused, as too many: %u\n", (unsigned)self.refused);
    fflush(stdout);
    self.refused = 0;
    self.said_at = now();
}

/* ---- plates */

static void write_plate(int number, char out[DOOR_PLATE + 1]) {
    for (int at = DOOR_PLATE - 1; at >= 0; at--, number /= SIGNS)
        out[at] = signs[number % SIGNS];
    out[DOOR_PLATE] = 0;
}

/* -1: it is none. */
static int read_plate(const char *text) {
    int number = 0;
    for (int at = 0; at < DOOR_PLATE; at++) {
        const char *sign = text[at] != 0 ? strchr(signs, text[at]) : NULL;
        if (sign == NULL)
            return -1;
        number = number * SIGNS + (int)(sign - signs);
    }
    return number;
}

static bool is_taken(int number) { return self.plate[number].until > now(); }

/* The plate that a host has already, or may have again; -1: none. */
static int plate_of(const door_request *asked) {
    int number = read_plate(asked->plate);
    if (number < 0 || (is_taken(number) && memcmp(self.plate[number].token, asked->token, DOOR_TOKEN) != 0))
        return -1;
    return number;
}

static int draw_plate(void) {
    for (int times = 0; times < DRAWN; times++) {
        int number = (int)randombytes_uniform(PLATES);
        if (!is_taken(number))
            return number;
    }
    return -1;
}

static door_status host(const door_request *asked, door_answer *answer) {
    int number = plate_of(asked);
    if (number < 0)
        number = draw_plate();
    if (number < 0)
        return DOOR_FULL;
    memcpy(self.plate[number].token, asked->token, DOOR_TOKEN);
    self.plate[number].until = now() + DOOR_KEPT;
    write_plate(number, answer->plate);
    memcpy(answer->token, asked->token, DOOR_TOKEN);
    return DOOR_OK;
}

static door_status join(const door_request *asked, door_answer *answer) {
    int number = read_plate(asked->plate);
    if (number < 0 || !is_taken(number))
        return DOOR_NO_PLATE;
    write_plate(number, answer->plate);
    memcpy(answer->token, self.plate[number].token, DOOR_TOKEN);
    return DOOR_OK;
}

/* ---- relays */

static void hash_of(const network *of, uint8_t part, uint8_t out[crypto_generichash_BYTES_MIN]) {
    uint64_t text[] = { (uint64_t)of->kind, of->prefix, part };
    crypto_generichash(out, crypto_generichash_BYTES_MIN, (const uint8_t *)text, sizeof text, self.id_key, sizeof self.id_key);
}

/* The same for all of an address of IPv4, or of a /48 of IPv6, so that coturn's quota counts for all of it. Of the /24 or /32 around that
 * there are as many as it has parts. */
static void write_id(const networks *from, char out[2 * ID + 1]) {
    const network *wide = &from->of[from->count - 1], *inner = from->count > 1 ? wide - 1 : wide;
    uint8_t hash[crypto_generichash_BYTES_MIN];
    hash_of(inner, 0, hash);
    hash_of(wide, hash[0] % PARTS, hash);
    sodium_bin2hex(out, 2 * ID + 1, hash, ID);
}

/* A user that ends by itself, and its password: so coturn knows it by use-auth-secret. */
static void give_relays(door_answer *answer, const networks *from) {
    uint8_t digest[32];
    gsize length = sizeof digest;
    char id[2 * ID + 1];
    write_id(from, id);
    snprintf(answer->user, sizeof answer->user, "%lld:%s", (long long)time(NULL) + self.hours * 3600, id);
    GHmac *made = g_hmac_new(G_CHECKSUM_SHA1, (const guchar *)self.secret, strlen(self.secret));
    g_hmac_update(made, (const guchar *)answer->user, -1);
    g_hmac_get_digest(made, digest, &length);
    g_hmac_unref(made);
    gchar *text = g_base64_encode(digest, length);
    snprintf(answer->password, sizeof answer->password, "%s", text);
    g_free(text);
    answer->seconds = (uint32_t)self.hours * 3600;
}

static void put_relay(door_answer *answer, const faz_lobby_settings *of, bool by_tcp) {
    if (of->stun == NULL || self.secret[0] == 0 || answer->relays == FAZ_LINE_RELAYS)
        return;
    door_server *to = &answer->relay[answer->relays++];
    to->by_tcp = by_tcp;
    to->port = of->stun_port;
    snprintf(to->address, sizeof to->address, "%s", of->stun);
}

/* self.servers[0] has the first relay as its STUN server too, if no other is named. */
static void put_servers(door_answer *answer, const networks *from_whom) {
    static faz_lobby_settings stun;
    static lobby_words words;
    if (self.stun != NULL && stun.stun == NULL) {
        words = (lobby_words){ .broker = self.broker, .stun = self.stun };
        faz_lobby_words_read(&words, &stun);
    }
    const faz_lobby_settings *from = self.stun != NULL ? &stun : &self.servers[0];
    snprintf(answer->stun, sizeof answer->stun, "%s", from->stun != NULL ? from->stun : "");
    answer->stun_port = from->stun_port;
    for (int by_tcp = 0; by_tcp < 2; by_tcp++)
        for (int at = 0; at < 2; at++)
            put_relay(answer, &self.servers[at], by_tcp != 0);
    if (answer->relays > 0)
        give_relays(answer, from_whom);
}

/* ---- answering */

/* `keeps`: a host asks for the plate that it has, for longer. */
static door_status status_of(const door_request *asked, bool keeps, const networks *from, door_answer *answer) {
    if (!budget_take(&budget_of_asks, from, keeps, now_nanos())) {
        self.refused++;
        return DOOR_TOO_MANY;
    }
    return asked->kind == DOOR_HOSTS ? host(asked, answer) : asked->kind == DOOR_JOINS ? join(asked, answer) : DOOR_OK;
}

/* A network that goes on asking isn't answered any more: to seal an answer takes much longer than to count. */
static void answer(natsConnection *broker, natsMsg *message) {
    door_request asked;
    door_answer answer = { 0 };
    uint8_t out[DOOR_MESSAGE];
    char address[HOST];
    networks from;
    const char *reply = natsMsg_GetReply(message);
    const uint8_t *bytes = (const uint8_t *)natsMsg_GetData(message);
    if (reply == NULL || !faz_door_request_read(&asked, bytes, (size_t)natsMsg_GetDataLength(message)))
        return;
    int number = asked.kind == DOOR_HOSTS ? plate_of(&asked) : -1;
    bool keeps = number >= 0 && is_taken(number);
    read_host(message, address);
    networks_of(&from, address);
    answer.status = status_of(&asked, keeps, &from, &answer);
    if (answer.status == DOOR_TOO_MANY && !budget_take(&budget_of_refusals, &from, false, now_nanos()))
        return;
    if (answer.status == DOOR_OK)
        put_servers(&answer, &from);
    if (!keeps && answer.status != DOOR_TOO_MANY)
        printf("%s asks %c %s: %d\n", address, asked.kind, answer.plate, (int)answer.status);
    fflush(stdout);
    size_t length = faz_door_answer_write(&answer, asked.open, out);
    if (length > 0)
        natsConnection_Publish(broker, reply, out, (int)length);
}

static natsStatus set_options(natsOptions *options) {
    natsStatus status = natsOptions_SetURL(options, self.broker);
    if (status == NATS_OK && strstr(self.broker, "tls://") != NULL)
        status = natsOptions_SetSecure(options, true);
    if (status == NATS_OK && self.trusted != NULL)
        status = natsOptions_LoadCATrustedCertificates(options, self.trusted);
    if (status == NATS_OK && self.creds != NULL)
        status = natsOptions_SetUserCredentialsFromFiles(options, self.creds, NULL);
    else if (status == NATS_OK && getenv("DOOR_PASSWORD") != NULL)
        status = natsOptions_SetUserInfo(options, "door", getenv("DOOR_PASSWORD"));
    natsOptions_SetMaxReconnect(options, -1);
    natsOptions_SetReconnectWait(options, WAIT);
    return status;
}

/* A broker that isn't there is waited for, but not one that doesn't let this door in. */
static natsStatus reach(natsConnection **broker) {
    natsOptions *options = NULL;
    bool has_waited = false;
    natsStatus status = natsOptions_Create(&options);
    if (status == NATS_OK)
        status = set_options(options);
    while (status == NATS_OK && (status = natsConnection_Connect(broker, options)) != NATS_OK && status != NATS_CONNECTION_AUTH_FAILED) {
        if (!has_waited)
            fprintf(stderr, "faz-door: waits for the broker (%s)\n", natsStatus_GetText(status));
        has_waited = true;
        nats_Sleep(WAIT);
        status = NATS_OK;
    }
    natsOptions_Destroy(options);
    return status;
}

static int serve(void) {
    natsConnection *broker = NULL;
    natsSubscription *asked = NULL;
    natsStatus status = reach(&broker);
    if (status == NATS_OK)
        status = natsConnection_SubscribeSync(&asked, broker, DOOR_SUBJECT);
    if (status == NATS_OK)
        status = natsSubscription_SetPendingLimits(asked, WAITING, WAITING * DOOR_MESSAGE);
    if (status == NATS_OK)
        puts("the door is open");
    fflush(stdout);
    while (status == NATS_OK || status == NATS_TIMEOUT || status == NATS_SLOW_CONSUMER) {
        natsMsg *message = NULL;
        status = natsSubscription_NextMsg(&message, asked, WAIT);
        if (status == NATS_OK)
            answer(broker, message);
        natsMsg_Destroy(message);
        say_refused();
    }
    fprintf(stderr, "faz-door: %s\n",
            status == NATS_CONNECTION_AUTH_FAILED ? "the broker doesn't let this door in" : natsStatus_GetText(status));
    natsConnection_Destroy(broker);
    natsSubscription_Destroy(asked); /* (libnats' thread that reads may use it until then) */
    return 1;
}

/* ---- the command line */

static int fail(const char *why) {
    fprintf(stderr, "faz-door: %s\n%s", why, usage);
    return 2;
}

static bool read_secret(void) {
    char line[TEXT];
    FILE *file = fopen(self.secret_file, "r");
    if (file == NULL)
        return false;
    while (fgets(line, sizeof line, file) != NULL) {
        line[strcspn(line, "\r\n")] = 0;
        if (strncmp(line, "static-auth-secret=", 19) == 0 && strlen(line + 19) < sizeof self.secret)
            strcpy(self.secret, line + 19);
    }
    fclose(file);
    return self.secret[0] != 0;
}

static bool can_read(const char *name) {
    FILE *file = fopen(name, "r");
    if (file != NULL)
        fclose(file);
    return file != NULL;
}

static const char *read_servers(void) {
    const char *const texts[2] = { self.relay, self.second };
    lobby_words stun = { .broker = self.broker, .stun = self.stun };
    faz_lobby_settings settings = { 0 };
    for (int at = 0; at < 2; at++) {
        self.words[at] = (lobby_words){ .broker = self.broker, .stun = texts[at] };
        if (faz_lobby_words_read(&self.words[at], &self.servers[at]) != NULL)
            return "a relay has no ADDRESS:PORT";
    }
    return faz_lobby_words_read(&stun, &settings) != NULL ? "--stun has no ADDRESS:PORT" : NULL;
}

int main(int count, char **words) {
    const option options[] = { { "--broker", NULL, &self.broker, NULL }, { "--trusted", NULL, &self.trusted, NULL },
                               { "--stun", NULL, &self.stun, NULL },     { "--relay", NULL, &self.relay, NULL },
                               { "--second", NULL, &self.second, NULL }, { "--secret", NULL, &self.secret_file, NULL },
                               { "--hours", &self.hours, NULL, NULL },   { "--tries", &self.tries, NULL, NULL },
                               { "--creds", NULL, &self.creds, NULL },   { NULL, NULL, NULL, NULL } };
    if (is_help(words, usage))
        return 0;
    if (read_options(words, options) != count || self.hours < 1 || self.hours > 8760 || self.tries < 1 || self.tries > BUDGET_MOST)
        return fail("these words can't be read");
    const char *why = read_servers();
    if (why != NULL)
        return fail(why);
    if (sodium_init() < 0)
        return fail("the system gives no random numbers");
    if (self.creds != NULL && !can_read(self.creds))
        return fail("the file of --creds can't be read");
    if ((self.relay != NULL) != (self.secret_file != NULL) || (self.secret_file != NULL && !read_secret()))
        return fail("relays need --secret, with a line static-auth-secret=..");
    crypto_generichash(self.id_key, sizeof self.id_key, (const uint8_t *)self.secret, strlen(self.secret), NULL, 0);
    budget_begin(&budget_of_asks, self.tries);
    budget_begin(&budget_of_refusals, self.tries);
    return serve();
}
