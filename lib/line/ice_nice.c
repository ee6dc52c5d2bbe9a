/* Ways by ICE, with libnice. Each has a main context of its own, which faz_line_ice_turn lets run as far as it can without waiting. */
#include "ice.h"

#include <gio/gio.h>
#include <nice/agent.h>
#include <nice/interfaces.h>
#include <stdio.h>
#include <stdlib.h>
#include <string.h>
#include <sys/socket.h>

/* Of the other machine's candidates so many are taken, so often the context runs in a turn, and so many bytes may wait in a socket. */
enum { CANDIDATES = 40, STEPS = 256, ROOM = 1 << 20 };

/* Bytes of an address of IPv6 that say in which network it is. */
enum { NETWORK = 8 };

/* What isn't answered is sent again after so many milliseconds, after twice that, and so on, this often. */
enum { ASKED_AGAIN = 250, TIMES = 4 };

/* In this turn relays are asked, if there is a STUN server: libnice drops what that one answers if it was asked behind them. */
enum { RELAYS_IN = 2 };

/* Milliseconds between two packets of a way that is looked for: the least that ICE allows. */
enum { PACED = 5 };

struct ice {
    GMainContext *context;
    NiceAgent *agent;
    guint stream;
    ice_settings settings;
    ice_state state;
    char text[ICE_TEXTS][ICE_TEXT];
    size_t texts, candidates;
    int turns;
    bool is_closing, is_closed;
};

static void tell(ice *self, const char *kind, const char *first, const char *second) {
    if (self->texts == ICE_TEXTS)
        return;
    int length = snprintf(self->text[self->texts], ICE_TEXT, "%s %s%s%s", kind, first, *second ? " " : "", second);
    if (length < ICE_TEXT)
        self->texts++;
}

/* A place on a relay is told with the address that has asked for it, which is this machine's: by a relay alone it is told without. */
static void on_candidate(NiceAgent *agent, NiceCandidate *candidate, gpointer of) {
    ice *self = of;
    bool is_hidden = self->settings.line->relay_only;
    if (is_hidden && candidate->type != NICE_CANDIDATE_TYPE_RELAYED)
        return;
    gchar *text = nice_agent_generate_local_candidate_sdp(agent, candidate);
    gchar *own = is_hidden ? strstr(text, " raddr ") : NULL;
    if (own != NULL)
        *own = 0;
    tell(self, "c", text, is_hidden ? "raddr 0.0.0.0 rport 0" : "");
    g_free(text);
}

static void on_gathered(NiceAgent *agent, guint stream, gpointer of) {
    (void)agent, (void)stream;
    tell(of, "e", "", "");
}

static void on_state(NiceAgent *agent, guint stream, guint component, guint state, gpointer of) {
    ice *self = of;
    (void)agent, (void)stream, (void)component;
    self->state = state == NICE_COMPONENT_STATE_CONNECTED || state == NICE_COMPONENT_STATE_READY ? ICE_THERE
        : state == NICE_COMPONENT_STATE_FAILED                                                   ? ICE_NONE
                                                                                                 : ICE_LOOKING;
}

static void on_datagram(NiceAgent *agent, guint stream, guint component, guint length, gchar *bytes, gpointer of) {
    ice *self = of;
    (void)agent, (void)stream, (void)component;
    self->settings.came(self->settings.of, self, (const uint8_t *)bytes, length);
}

static void on_closed(GObject *agent, GAsyncResult *result, gpointer of) {
    ice *self = of;
    (void)agent, (void)result;
    self->is_closed = true;
}

static void set_relays(ice *self) {
    const faz_line_settings *line = self->settings.line;
    for (uint32_t at = 0; at < line->relay_count; at++) {
        const faz_line_relay *relay = &line->relays[at];
        nice_agent_set_relay_info(self->agent, self->stream, 1, relay->address, relay->port, relay->user, relay->password,
                                  relay->by_tcp ? NICE_RELAY_TYPE_TURN_TCP : NICE_RELAY_TYPE_TURN_UDP);
    }
}

/* Sockets get all the room that the system gives them, so that junk in one leaves room for what is genuine. */
static void make_room(ice *self) {
    GPtrArray *sockets = nice_agent_get_sockets(self->agent, self->stream, 1);
    for (guint at = 0; sockets != NULL && at < sockets->len; at++)
        g_socket_set_option(g_ptr_array_index(sockets, at), SOL_SOCKET, SO_RCVBUF, ROOM, NULL);
    if (sockets != NULL)
        g_ptr_array_unref(sockets);
}

static void tell_credentials(ice *self) {
    gchar *user = NULL, *password = NULL;
    if (nice_agent_get_local_credentials(self->agent, self->stream, &user, &password))
        tell(self, "u", user, password);
    g_free(user);
    g_free(password);
}

ice *faz_line_ice_open(const ice_settings *settings) {
    ice *self = calloc(1, sizeof *self);
    if (self == NULL)
        return NULL;
    self->settings = *settings;
    self->context = g_main_context_new();
    /* Without regular nomination: the first pair that works carries at once, and a better one takes its place. */
    self->agent = nice_agent_new_full(self->context, NICE_COMPATIBILITY_RFC5245,
                                      NICE_AGENT_OPTION_ICE_TRICKLE | NICE_AGENT_OPTION_CONSENT_FRESHNESS);
    g_object_set(self->agent, "controlling-mode", (gboolean)settings->leads, "upnp", FALSE, "ice-tcp", FALSE, "force-relay",
                 (gboolean)settings->line->relay_only, "stun-initial-timeout", (guint)ASKED_AGAIN, "stun-max-retransmissions", (guint)TIMES,
                 "stun-pacing-timer", (guint)PACED, NULL);
    g_signal_connect(self->agent, "new-candidate-full", G_CALLBACK(on_candidate), self);
    g_signal_connect(self->agent, "candidate-gathering-done", G_CALLBACK(on_gathered), self);
    g_signal_connect(self->agent, "component-state-changed", G_CALLBACK(on_state), self);
    self->stream = nice_agent_add_stream(self->agent, 1);
    if (settings->line->stun != NULL)
        g_object_set(self->agent, "stun-server", settings->line->stun, "stun-server-port", (guint)settings->line->stun_port, NULL);
    else
        set_relays(self);
    nice_agent_attach_recv(self->agent, self->stream, 1, self->context, on_datagram, self);
    tell_credentials(self);
    if (!nice_agent_gather_candidates(self->agent, self->stream))
        self->state = ICE_NONE;
    make_room(self);
    return self;
}

static void run(ice *self) {
    for (int step = 0; step < STEPS && g_main_context_iteration(self->context, FALSE); step++) {
    }
}

void faz_line_ice_turn(ice *self) {
    run(self);
    if (self->turns < RELAYS_IN && ++self->turns == RELAYS_IN && self->settings.line->stun != NULL)
        set_relays(self);
}

const char *faz_line_ice_text(const ice *self, size_t at) { return at < self->texts ? self->text[at] : NULL; }

static void add_candidate(ice *self, const char *text) {
    NiceCandidate *candidate = nice_agent_parse_remote_candidate_sdp(self->agent, self->stream, text);
    if (candidate == NULL)
        return;
    GSList *list = g_slist_append(NULL, candidate);
    if (nice_agent_set_remote_candidates(self->agent, self->stream, 1, list) > 0)
        self->candidates++;
    g_slist_free_full(list, (GDestroyNotify)nice_candidate_free);
}

void faz_line_ice_told(ice *self, const char *text) {
    char user[ICE_TEXT], password[ICE_TEXT];
    if (strlen(text) >= ICE_TEXT)
        return;
    if (sscanf(text, "u %255s %255s", user, password) == 2)
        nice_agent_set_remote_credentials(self->agent, self->stream, user, password);
    else if (text[0] == 'c' && text[1] == ' ' && self->candidates < CANDIDATES)
        add_candidate(self, text + 2);
    else if (text[0] == 'e')
        nice_agent_peer_candidate_gathering_done(self->agent, self->stream);
}

ice_state faz_line_ice_look(const ice *self) { return self->state; }

/* Whether two addresses of IPv6 are in one network, though all the internet may reach them. */
static bool are_neighbours(const NiceAddress *one, const NiceAddress *other) {
    return nice_address_ip_version(one) == 6 && nice_address_ip_version(other) == 6
        && memcmp(&one->s.ip6.sin6_addr, &other->s.ip6.sin6_addr, NETWORK) == 0;
}

faz_line_way faz_line_ice_way(ice *self) {
    NiceCandidate *here = NULL, *there = NULL;
    if (!nice_agent_get_selected_pair(self->agent, self->stream, 1, &here, &there))
        return FAZ_LINE_NO_WAY;
    if (here->type == NICE_CANDIDATE_TYPE_RELAYED || there->type == NICE_CANDIDATE_TYPE_RELAYED)
        return FAZ_LINE_RELAYED;
    return nice_address_is_private(&there->addr) || are_neighbours(&here->addr, &there->addr) ? FAZ_LINE_LAN : FAZ_LINE_DIRECT;
}

bool faz_line_ice_send(ice *self, const uint8_t *bytes, size_t length) {
    return nice_agent_send(self->agent, self->stream, 1, (guint)length, (const gchar *)bytes) == (gint)length;
}

void faz_line_ice_settle(ice *self) { nice_agent_forget_relays(self->agent, self->stream, 1); }

/* Its answer comes to the context that is the thread's at the call. */
static void begin_to_close(ice *self) {
    self->is_closing = true;
    nice_agent_attach_recv(self->agent, self->stream, 1, self->context, NULL, NULL);
    g_signal_handlers_disconnect_by_data(self->agent, self);
    g_main_context_push_thread_default(self->context);
    nice_agent_close_async(self->agent, on_closed, self);
    g_main_context_pop_thread_default(self->context);
}

void faz_line_ice_drop(ice *self) {
    if (!self->is_closing)
        begin_to_close(self);
    run(self);
    g_object_unref(self->agent);
    run(self);
    g_main_context_unref(self->context);
    free(self);
}

bool faz_line_ice_close(ice *self) {
    if (!self->is_closing)
        begin_to_close(self);
    run(self);
    if (!self->is_closed)
        return false;
    faz_line_ice_drop(self);
    return true;
}

void faz_ice_wait(void) { g_usleep(1000); }

uint64_t faz_ice_addresses(void) {
    uint64_t sum = 0;
    GList *all = nice_interfaces_get_local_ips(FALSE);
    for (GList *each = all; each != NULL; each = each->next)
        sum += UINT64_C(0x9e3779b97f4a7c15) * (g_str_hash(each->data) + UINT64_C(1));
    g_list_free_full(all, g_free);
    return sum;
}
