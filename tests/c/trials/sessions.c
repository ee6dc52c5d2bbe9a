/* Sessions that aren't the one that a peer plays: each call that takes both refuses them, and changes nothing; and with the right
 * one the match goes on. */
#include "trials.h"

#include <stdlib.h>
#include <string.h>

enum { BEFORE = 60, LATER = 120 };

/* ---- What a session was told, to be told again. */

typedef struct story {
    fazgrond_entry *entries;
    size_t count;
} story;

static story story_of(fazgrond_session *session) {
    story made = { NULL, 0 };
    fazgrond_log_length(session, &made.count);
    made.entries = malloc((made.count + 1) * sizeof *made.entries);
    if (made.entries == NULL)
        abort();
    for (size_t at = 0; at < made.count; at++)
        trial_must(fazgrond_log_entry(session, at, &made.entries[at]) == FAZGROND_OK, "an entry of the log is there");
    return made;
}

static int32_t tell(fazgrond_session *session, const fazgrond_entry *entry) {
    uint8_t player = (uint8_t)entry->player;
    fazgrond_reached reached;
    fazgrond_row row;
    uint32_t repeated;
    switch (entry->kind) {
    case FAZGROND_LOCAL: return fazgrond_add_local_input(session, player, entry->word);
    case FAZGROND_REMOTE: return fazgrond_remote_input(session, player, entry->frame, entry->word, &repeated);
    case FAZGROND_DISCONNECT: return fazgrond_disconnect_player(session, player);
    case FAZGROND_SYNC: return fazgrond_synchronize_input(session, &row);
    default: return fazgrond_advance_frame(session, &reached);
    }
}

/* Tells a session a story for which there is no game. */
static void tell_all(fazgrond_session *session, const story *told) {
    fazgrond_request request;
    for (size_t at = 0; at < told->count; at++) {
        trial_must(tell(session, &told->entries[at]) == FAZGROND_OK, "a call is accepted again");
        while (fazgrond_take_requests(session, &request, 1) > 0)
            ;
    }
}

/* Opens a session with these settings, and tells it all that machine 0's was told. */
static void open_twin(world *self, fazgrond_session *made, const fazgrond_settings *settings) {
    story told = story_of(&self->machine[0].session);
    trial_must(fazgrond_open(made, settings) == FAZGROND_OK, "a twin opens");
    tell_all(made, &told);
    free(told.entries);
}

/* ---- Other sessions. Player 2 is remote to machine 0, and player 1 its own. */

static void anew(world *self, fazgrond_session *made) {
    fazgrond_settings settings = world_settings(self, 0);
    fazgrond_open(made, &settings);
}

static void of_another_match(world *self, fazgrond_session *made) {
    fazgrond_reached reached;
    fazgrond_request request;
    uint32_t repeated;
    anew(self, made);
    for (uint32_t frame = 0; frame < 5; frame++) {
        trial_must(fazgrond_remote_input(made, 2, frame, 9, &repeated) == FAZGROND_OK, "it hears a word");
        trial_must(fazgrond_add_local_input(made, 1, 9) == FAZGROND_OK, "it is given a word");
        trial_must(fazgrond_advance_frame(made, &reached) == FAZGROND_OK, "it plays a frame");
        while (fazgrond_take_requests(made, &request, 1) > 0)
            ;
    }
}

static void of_the_other_machine(world *self, fazgrond_session *made) {
    story told = story_of(&self->machine[1].session);
    fazgrond_settings settings = world_settings(self, 1);
    trial_must(fazgrond_open(made, &settings) == FAZGROND_OK, "it opens");
    tell_all(made, &told);
    free(told.entries);
}

static void twin(world *self, fazgrond_session *made) {
    fazgrond_settings settings = world_settings(self, 0);
    open_twin(self, made, &settings);
}

static void with_a_remote_word_more(world *self, fazgrond_session *made) {
    uint32_t frame = 0, repeated;
    twin(self, made);
    fazgrond_confirmed(made, 2, &frame);
    trial_must(fazgrond_remote_input(made, 2, frame, 7, &repeated) == FAZGROND_OK, "it hears a word");
}

static void that_a_player_left(world *self, fazgrond_session *made) {
    twin(self, made);
    trial_must(fazgrond_disconnect_player(made, 2) == FAZGROND_OK, "a player leaves it");
}

/* All that machine 0's was told but its own last word. */
static void without_an_own_word(world *self, fazgrond_session *made) {
    fazgrond_settings settings = world_settings(self, 0);
    story told = story_of(&self->machine[0].session);
    size_t last = told.count, kept = 0;
    while (last > 0 && told.entries[--last].kind != FAZGROND_LOCAL)
        ;
    for (size_t at = 0; at < told.count; at++)
        if (at < last || told.entries[at].kind == FAZGROND_REMOTE)
            told.entries[kept++] = told.entries[at];
    told.count = kept;
    fazgrond_open(made, &settings);
    tell_all(made, &told);
    free(told.entries);
}

static void with_another_limit(world *self, fazgrond_session *made) {
    fazgrond_settings settings = world_settings(self, 0);
    settings.limit--;
    open_twin(self, made, &settings);
}

static void with_another_log(world *self, fazgrond_session *made) {
    fazgrond_settings settings = world_settings(self, 0);
    settings.log--;
    open_twin(self, made, &settings);
}

static void with_another_mask(world *self, fazgrond_session *made) {
    fazgrond_settings settings = world_settings(self, 0);
    settings.masks[1] = 1;
    open_twin(self, made, &settings);
}

static void in_the_other_profile(world *self, fazgrond_session *made) {
    fazgrond_settings settings = world_settings(self, 0);
    settings.profile = settings.profile == FAZGROND_GGPO ? FAZGROND_WIDE : FAZGROND_GGPO;
    open_twin(self, made, &settings);
}

static const struct {
    const char *name;
    void (*make)(world *self, fazgrond_session *made);
    int32_t answer;
} others[] = {
    { "opened anew", anew, FAZGROND_OTHER_SESSION },
    { "of another match", of_another_match, FAZGROND_OTHER_SESSION },
    { "of the other machine", of_the_other_machine, FAZGROND_OTHER_SESSION },
    { "with a remote word more", with_a_remote_word_more, FAZGROND_OTHER_SESSION },
    { "that a player left", that_a_player_left, FAZGROND_OTHER_SESSION },
    { "without an own word", without_an_own_word, FAZGROND_OTHER_SESSION },
    { "with another limit", with_another_limit, FAZGROND_OTHER_SESSION },
    { "with another log", with_another_log, FAZGROND_OTHER_SESSION },
    { "with another mask", with_another_mask, FAZGROND_OTHER_SESSION },
    { "in the other profile", in_the_other_profile, FAZGROND_OTHER_SESSION },
    { "that isn't open", NULL, FAZGROND_IS_CLOSED },
};

/* ---- What comes of them. */

/* What can be seen of a peer and of a session. */
typedef struct look {
    fazgrond_stats stats;
    uint32_t frame, settled, confirmed[2];
    size_t entries;
} look;

static look look_at(world *self, fazgrond_session *session) {
    look seen;
    memset(&seen, 0, sizeof seen);
    fazgrond_peer_stats(&self->machine[0].peer, 1, &seen.stats);
    fazgrond_frame(session, &seen.frame);
    fazgrond_settled(session, &seen.settled);
    fazgrond_log_length(session, &seen.entries);
    for (uint8_t player = 1; player <= 2; player++)
        fazgrond_confirmed(session, player, &seen.confirmed[player - 1]);
    return seen;
}

/* What machine 1 sends to machine 0 at this moment. */
static datagram next_of_the_other(world *self) {
    datagram made = { .from = 1 };
    machine *other = &self->machine[1];
    int32_t code = fazgrond_peer_send(&other->peer, &other->session, 0, world_clock(self, 1), made.bytes, FAZGROND_DATAGRAM, &made.length);
    trial_must(code == FAZGROND_OK, "the other machine sends");
    return made;
}

/* Machine 0's peer answers each call with this session by this code, and neither of them changes. */
static void must_answer(world *self, fazgrond_session *session, const datagram *come, int32_t answer) {
    fazgrond_peer *peer = &self->machine[0].peer;
    uint32_t now = world_clock(self, 0);
    uint8_t bytes[FAZGROND_DATAGRAM];
    size_t length = 77;
    fazgrond_event event;
    look before = look_at(self, session);
    trial_must(fazgrond_peer_receive(peer, session, come->bytes, come->length, now) == answer, "what is heard is refused");
    trial_must(fazgrond_peer_poll(peer, session, now) == answer, "a poll is refused");
    trial_must(fazgrond_peer_send(peer, session, 1, now, bytes, sizeof bytes, &length) == answer, "nothing is sent");
    trial_must(length == 77, "nothing is written");
    trial_must(fazgrond_peer_note_settled(peer, session, 1) == answer, "nothing is noted");
    trial_must(fazgrond_peer_event(peer, &event) == FAZGROND_NOTHING, "nothing is told");
    look after = look_at(self, session);
    trial_must(memcmp(&before, &after, sizeof before) == 0, "nothing changes");
}

static world *begin(uint32_t seed) {
    setup with = plain;
    with.machines = 2 + seed % 2;
    with.delay = 15 + seed % 3 * 20;
    with.loss = seed % 4 * 5;
    with.input_delay = seed / 2 % 2;
    with.seed = seed;
    world *self = world_begin(&with);
    world_open_all(self);
    trial_must(world_play(self, BEFORE + seed % 30, 10000), "the match begins");
    return self;
}

static void must_go_on(world *self) {
    uint32_t frames = self->machine[0].settled;
    trial_must(world_play(self, frames + LATER, 10000), "the match goes on");
    for (uint32_t other = 1; other < self->setup.machines; other++)
        trial_must_of(world_agree(self, 0, other, frames + LATER), other, "all agree");
    trial_nothing_but(self, 0);
    world_end(self);
}

static void is_another(size_t which, uint32_t seed) {
    trial_case("a session %s, seed %u", others[which].name, (unsigned)seed);
    world *self = begin(seed);
    fazgrond_session made = FAZGROND_CLOSED;
    datagram come = next_of_the_other(self);
    if (others[which].make != NULL)
        others[which].make(self, &made);
    must_answer(self, &made, &come, others[which].answer);
    fazgrond_close(&made);
    trial_must(fazgrond_peer_receive(&self->machine[0].peer, &self->machine[0].session, come.bytes, come.length, world_clock(self, 0))
                   == FAZGROND_OK,
               "with the right one it is heard");
    must_go_on(self);
}

/* A session that was told all that the right one was told isn't told from it. */
static void is_no_other(uint32_t seed) {
    trial_case("a session that was told the same, seed %u", (unsigned)seed);
    world *self = begin(seed);
    fazgrond_session made = FAZGROND_CLOSED;
    machine *at = &self->machine[0];
    datagram said = { .from = 0, .to = 1 };
    uint32_t now = world_clock(self, 0);
    twin(self, &made);
    look one = look_at(self, &at->session), other = look_at(self, &made);
    trial_must(memcmp(&one, &other, sizeof one) == 0, "it is as far");
    trial_must(fazgrond_peer_poll(&at->peer, &made, now) == FAZGROND_OK, "a poll takes it");
    trial_must(fazgrond_peer_send(&at->peer, &made, 1, now, said.bytes, FAZGROND_DATAGRAM, &said.length) == FAZGROND_OK,
               "what is sent is its words");
    world_send(self, 0, 1, said.bytes, said.length, 5);
    fazgrond_close(&made);
    must_go_on(self);
}

/* The right session is told of another machine past the peer: the match stands, until it is opened anew, and told all but that. */
static void is_told_past(bool is_word, uint32_t seed) {
    trial_case("the right session is told %s past the peer, seed %u", is_word ? "a word" : "that a player left", (unsigned)seed);
    world *self = begin(seed);
    machine *at = &self->machine[0];
    uint64_t shown = world_state(at);
    uint32_t frame = 0, repeated = 0;
    datagram come = next_of_the_other(self);
    fazgrond_confirmed(&at->session, 2, &frame);
    trial_must((is_word ? fazgrond_remote_input(&at->session, 2, frame, 7, &repeated) : fazgrond_disconnect_player(&at->session, 2))
                   == FAZGROND_OK,
               "the session takes it");
    for (int time = 0; time < 3; time++)
        must_answer(self, &at->session, &come, FAZGROND_OTHER_SESSION);
    story told = story_of(&at->session);
    world_open_session(self, 0);
    for (size_t one = 0; one + 1 < told.count; one++) {
        trial_must(tell(&at->session, &told.entries[one]) == FAZGROND_OK, "a call is accepted again");
        machine_carry_out(&self->machine[0]);
    }
    free(told.entries);
    trial_must(world_state(at) == shown, "it shows the same as before");
    must_go_on(self);
}

void trial_sessions(uint32_t count, uint32_t seed) {
    for (uint32_t time = 0; time < count; time++, seed++) {
        for (size_t which = 0; which < sizeof others / sizeof *others; which++)
            is_another(which, seed);
        is_no_other(seed);
        is_told_past(true, seed);
        is_told_past(false, seed);
    }
}
