#include "pake.h"

#include <errno.h>
#include <gnutls/crypto.h>
#include <gnutls/gnutls.h>
#include <stdlib.h>
#include <string.h>

enum { NAME = 32, SALT = 16, PRIME_BITS = 2048 };

struct pake {
    gnutls_session_t session;
    gnutls_srp_client_credentials_t client;
    gnutls_srp_server_credentials_t server;
    char name[NAME], secret[NAME];
    const uint8_t *in;
    size_t in_left;
    uint8_t *out;
    size_t out_size;
    bool is_done, is_broken; /* broken: more was to be said than there is room for */
};

/* ---- what the handshake sends and receives */

static ssize_t push(gnutls_transport_ptr_t of, const void *bytes, size_t length) {
    pake *self = of;
    self->is_broken = self->is_broken || self->out == NULL || length > PAKE_BYTES - 1 - self->out_size;
    if (!self->is_broken) {
        memcpy(self->out + self->out_size, bytes, length);
        self->out_size += length;
    }
    return (ssize_t)length;
}

static ssize_t pull(gnutls_transport_ptr_t of, void *bytes, size_t room) {
    pake *self = of;
    size_t length = room < self->in_left ? room : self->in_left;
    if (length == 0) {
        gnutls_transport_set_errno(self->session, EAGAIN);
        return -1;
    }
    memcpy(bytes, self->in, length);
    self->in += length;
    self->in_left -= length;
    return (ssize_t)length;
}

static int pull_timeout(gnutls_transport_ptr_t of, unsigned milliseconds) {
    const pake *self = of;
    (void)milliseconds;
    return self->in_left > 0;
}

/* ---- the host's side: what it knows instead of the secret, anew for each who comes */

static int copy(gnutls_datum_t *to, const gnutls_datum_t *from) {
    to->data = gnutls_malloc(from->size);
    to->size = from->size;
    if (to->data == NULL)
        return -1;
    memcpy(to->data, from->data, from->size);
    return 0;
}

static int on_name(gnutls_session_t session, const char *name, gnutls_datum_t *salt, gnutls_datum_t *verifier, gnutls_datum_t *generator,
                   gnutls_datum_t *prime) {
    const pake *self = gnutls_session_get_ptr(session);
    uint8_t bytes[SALT];
    gnutls_datum_t drawn = { bytes, sizeof bytes };
    if (strcmp(name, self->name) != 0 || gnutls_rnd(GNUTLS_RND_NONCE, bytes, sizeof bytes) != 0)
        return -1;
    return copy(salt, &drawn) != 0 || copy(generator, &gnutls_srp_2048_group_generator) != 0
            || copy(prime, &gnutls_srp_2048_group_prime) != 0
            || gnutls_srp_verifier(self->name, self->secret, salt, generator, prime, verifier) != 0
        ? -1
        : 0;
}

/* ---- opening */

static bool set_credentials(pake *self, bool is_host) {
    if (is_host) {
        if (gnutls_srp_allocate_server_credentials(&self->server) != 0)
            return false;
        gnutls_srp_set_server_credentials_function(self->server, on_name);
        return gnutls_credentials_set(self->session, GNUTLS_CRD_SRP, self->server) == 0;
    }
    if (gnutls_srp_allocate_client_credentials(&self->client) != 0
        || gnutls_srp_set_client_credentials(self->client, self->name, self->secret) != 0)
        return false;
    gnutls_srp_set_prime_bits(self->session, PRIME_BITS);
    return gnutls_credentials_set(self->session, GNUTLS_CRD_SRP, self->client) == 0;
}

static bool set_session(pake *self, bool is_host) {
    unsigned flags = (is_host ? GNUTLS_SERVER : GNUTLS_CLIENT) | GNUTLS_NONBLOCK | GNUTLS_NO_SIGNAL | GNUTLS_NO_TICKETS;
    if (gnutls_init(&self->session, flags) != 0
        || gnutls_priority_set_direct(self->session, "NORMAL:-KX-ALL:+SRP:-VERS-ALL:+VERS-TLS1.2", NULL) != 0)
        return false;
    gnutls_session_set_ptr(self->session, self);
    gnutls_transport_set_ptr(self->session, self);
    gnutls_transport_set_push_function(self->session, push);
    gnutls_transport_set_pull_function(self->session, pull);
    gnutls_transport_set_pull_timeout_function(self->session, pull_timeout);
    gnutls_handshake_set_timeout(self->session, GNUTLS_INDEFINITE_TIMEOUT);
    return set_credentials(self, is_host);
}

pake *faz_pake_open(bool is_host, const char *name, const char *secret) {
    pake *self = strlen(name) < NAME && strlen(secret) < NAME ? calloc(1, sizeof *self) : NULL;
    if (self == NULL)
        return NULL;
    strcpy(self->name, name);
    strcpy(self->secret, secret);
    if (set_session(self, is_host))
        return self;
    faz_pake_close(self);
    return NULL;
}

pake_answer faz_pake_turn(pake *self, const uint8_t *bytes, size_t length, uint8_t out[PAKE_BYTES], size_t *size) {
    int status = GNUTLS_E_SUCCESS;
    self->in = bytes;
    self->in_left = length;
    self->out = out;
    self->out_size = 0;
    if (!self->is_done)
        status = gnutls_handshake(self->session);
    self->out = NULL;
    *size = self->out_size;
    if (self->is_broken || (status != GNUTLS_E_SUCCESS && status != GNUTLS_E_AGAIN && status != GNUTLS_E_INTERRUPTED))
        return PAKE_WRONG;
    self->is_done = status == GNUTLS_E_SUCCESS;
    return self->is_done ? PAKE_DONE : PAKE_MORE;
}

void faz_pake_key(pake *self, uint8_t key[PAKE_KEY]) {
    static const char label[] = "EXPORTER-fazgrond-code-1";
    if (!self->is_done || gnutls_prf_rfc5705(self->session, sizeof label - 1, label, 0, NULL, PAKE_KEY, (char *)key) != 0)
        gnutls_rnd(GNUTLS_RND_KEY, key, PAKE_KEY);
}

void faz_pake_close(pake *self) {
    if (self == NULL)
        return;
    if (self->session != NULL)
        gnutls_deinit(self->session);
    if (self->client != NULL)
        gnutls_srp_free_client_credentials(self->client);
    if (self->server != NULL)
        gnutls_srp_free_server_credentials(self->server);
    gnutls_memset(self, 0, sizeof *self);
    free(self);
}
