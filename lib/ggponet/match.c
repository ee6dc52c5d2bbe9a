/* A match: a session of fazgrond.h, and its network beside it. */
#include "inside.h"

enum { BYES = 3 };

/* The machine of a player: each address is one, and this one is another, in the order of their first players. */
static int machine_of(GGPOSession *session, int number) {
    const player *self = &session->player[number - 1];
    for (int at = 0; at < number - 1; at++) {
        const player *other = &session->player[at];
        if (other->type == self->type && (self->type == GGPO_PLAYERTYPE_LOCAL || ggponet_is_address(&other->address, &self->address)))
            return other->machine;
    }
    machine *made = &session->machine[session->machines];
    made->handle = number;
    made->address = self->address;
    if (self->type == GGPO_PLAYERTYPE_LOCAL)
        session->me = session->machines;
    return session->machines++;
}

static bool are_all_there(const GGPOSession *session) {
    for (int at = 0; at < session->players; at++)
        if (!session->player[at].is_there)
            return false;
    return true;
}

/* Numbers the machines of the match, and says which is each player's. */
static void place_players(GGPOSession *session) {
    session->machines = 0;
    session->me = -1;
    for (int at = 0; at < session->players; at++)
        session->player[at].machine = machine_of(session, at + 1);
    session->place = session->me;
    for (int at = 0; at < MACHINES; at++)
        session->place_of[at] = at;
}

/* A remote player whose address is this machine's, with its port; 0 if there is none. On a wire addresses are names. */
static int player_at_own_address(const GGPOSession *session) {
    for (int at = 0; at < session->players && session->has_port; at++) {
        const player *of = &session->player[at];
        if (of->type == GGPO_PLAYERTYPE_REMOTE && ntohl(of->address.sin_addr.s_addr) >> 24 == 127
            && ntohs(of->address.sin_port) == session->port)
            return at + 1;
    }
    return 0;
}

/* Of a vacant player nobody is told that it has left. False: others of its machine aren't vacant. */
static bool take_vacant(GGPOSession *session) {
    bool are_alike = true;
    for (int at = 0; at < session->players; at++) {
        player *of = &session->player[at];
        const player *first = &session->player[session->machine[of->machine].handle - 1];
        are_alike = are_alike && of->is_vacant == first->is_vacant;
        of->has_left = of->is_vacant;
        of->words_gone = of->is_vacant ? session->words : 0;
    }
    return are_alike;
}

static fazgrond_settings the_settings(const GGPOSession *session) {
    fazgrond_settings settings = fazgrond_settings_for((uint32_t)ggponet_all_words(session));
    settings.threshold = GGPO_MAX_PREDICTION_FRAMES;
    for (int at = 0; at < ggponet_all_words(session); at++) {
        const player *of = &session->player[at / session->words];
        if (of->type == GGPO_PLAYERTYPE_LOCAL) {
            settings.local |= 1u << at;
            settings.delays[at] = (uint32_t)of->delay;
        }
    }
    return settings;
}

/* A machine that gives no inputs, and is heard, is waited for, as in GGPO. */
static fazgrond_match the_match(const GGPOSession *session) {
    fazgrond_match match = fazgrond_match_for((uint32_t)session->machines, (uint32_t)session->me);
    for (int at = 0; at < ggponet_all_words(session); at++)
        match.owners[at] = (uint32_t)session->player[at / session->words].machine;
    match.words = (uint32_t)session->words;
    for (int at = 0; at < FAZGROND_MACHINES; at++)
        match.numbers[at] = session->machine[at].pair.is_said ? session->machine[at].pair.number : session->number;
    match.digest = session->digest;
    match.opening = session->opening;
    match.comers = ggponet_comers(session);
    match.silent_after = session->silent_after;
    match.notify_after = session->notify_after;
    return match;
}

static void close_both(GGPOSession *session) {
    fazgrond_peer_close(&session->peer);
    fazgrond_close(&session->rollback);
}

/* How a datagram goes out: by the line, or at once. */
typedef void by_line(GGPOSession *session, int to, const uint8_t *bytes, size_t length);

/* Three machines or more carry for each other where a line breaks. */
static int32_t open_peer(GGPOSession *session, const fazgrond_match *match) {
    return fazgrond_peer_open_carrying(&session->peer, &session->rollback, match);
}

static void send_more(GGPOSession *session, by_line *send) {
    uint8_t bytes[FAZGROND_DATAGRAM], to;
    size_t length;
    while (fazgrond_peer_send_more(&session->peer, &to, bytes, sizeof bytes, &length) == FAZGROND_OK)
        send(session, ggponet_place_of(session, to), bytes, length);
}

/* What a machine needs that may still be in the epoch before. */
static void send_before(GGPOSession *session, int to) {
    uint8_t bytes[FAZGROND_DATAGRAM];
    size_t length;
    if (session->can_rejoin
        && fazgrond_peer_send_before(&session->peer, (uint8_t)to, ggponet_millis(session), bytes, sizeof bytes, &length) == FAZGROND_OK)
        ggponet_send_to(session, ggponet_place_of(session, (uint32_t)to), bytes, length);
}

GGPOErrorCode ggponet_open_lasting(GGPOSession *session, const fazgrond_settings *settings) {
    fazgrond_match match = the_match(session);
    match.me = (uint32_t)session->me;
    if (!ggponet_new_draw(&match.draw))
        return ggponet_no_draw(session);
    int32_t answer = fazgrond_open(&session->rollback, settings);
    if (answer == FAZGROND_OK)
        answer = fazgrond_peer_open_lasting(&session->peer, &session->rollback, &match, &session->epoch);
    return ggponet_refused(session, answer);
}

/* The first epoch. Which delays the others have is their own affair. Whose own player is vacant doesn't begin with them. */
static GGPOErrorCode open_first_epoch(GGPOSession *session) {
    fazgrond_settings settings = the_settings(session);
    fazgrond_match match = the_match(session);
    bool comes_later = ggponet_comes_later(session);
    session->epoch = fazgrond_epoch_for(&match, &settings);
    for (int at = 0; at < ggponet_all_words(session); at++)
        if (session->player[at / session->words].is_vacant)
            session->epoch.owners[at] = FAZGROND_NOBODY;
    GGPOErrorCode code = comes_later ? GGPO_OK : ggponet_open_lasting(session, &settings);
    if (code == GGPO_OK)
        code = ggponet_open_seats(session);
    if (code == GGPO_OK && comes_later)
        ggponet_begin_to_come(session);
    return code;
}

bool ggponet_comes_later(const GGPOSession *session) { return session->player[session->machine[session->place].handle - 1].is_vacant; }

GGPOErrorCode ggponet_open_anew(GGPOSession *session) {
    close_both(session);
    ggponet_close_seats(session);
    place_players(session);
    (void)take_vacant(session);
    session->base = session->came_from = session->remembered = 0;
    session->is_coming = session->has_no_host = false;
    return open_first_epoch(session) == GGPO_OK ? GGPO_OK : ggponet_broken(session, "the match can't be opened anew");
}

/* Opens the session and its peer. */
static GGPOErrorCode open_both(GGPOSession *session) {
    if (session->can_rejoin)
        return open_first_epoch(session);
    fazgrond_settings settings = the_settings(session);
    fazgrond_match match = the_match(session);
    if (!ggponet_new_draw(&match.draw))
        return ggponet_no_draw(session);
    int32_t answer = fazgrond_open(&session->rollback, &settings);
    if (answer == FAZGROND_OK)
        answer = open_peer(session, &match);
    return ggponet_refused(session, answer);
}

GGPOErrorCode ggponet_open_match(GGPOSession *session) {
    if (session->is_open || !are_all_there(session))
        return GGPO_OK;
    place_players(session);
    if (session->me < 0)
        return ggponet_refuse(session, GGPO_ERRORCODE_INVALID_REQUEST, "no player is local");
    if (session->machines < 2)
        return ggponet_refuse(session, GGPO_ERRORCODE_UNSUPPORTED, "all players are local, so that there is no match");
    int own = player_at_own_address(session);
    if (own > 0)
        return ggponet_refuse(session, GGPO_ERRORCODE_INVALID_REQUEST, "player %d has this machine's own address", own);
    if (!take_vacant(session))
        return ggponet_refuse(session, GGPO_ERRORCODE_INVALID_REQUEST, "of one machine some players are vacant, and some aren't");
    GGPOErrorCode code = ggponet_take_pairs(session);
    if (code == GGPO_OK)
        code = open_both(session);
    if (code == GGPO_OK)
        code = ggponet_open_lines(session);
    session->is_open = code == GGPO_OK;
    if (!session->is_open)
        close_both(session);
    return code;
}

GGPOErrorCode ggponet_poll(GGPOSession *session) {
    /* A player who can't leave for want of memory is tried again by the next poll. */
    if (fazgrond_peer_poll(&session->peer, &session->rollback, ggponet_millis(session)) == FAZGROND_OTHER_SESSION)
        return ggponet_broken(session, "the match's session was told of others past its peer");
    ggponet_take_events(session);
    return GGPO_OK;
}

void ggponet_send_to_machines(GGPOSession *session) {
    uint8_t bytes[FAZGROND_DATAGRAM];
    size_t length;
    for (int to = 0; to < session->machines; to++) {
        if (to == session->me)
            continue;
        if (fazgrond_peer_send(&session->peer, &session->rollback, (uint8_t)to, ggponet_millis(session), bytes, sizeof bytes, &length)
            == FAZGROND_OK)
            ggponet_send_to(session, ggponet_place_of(session, (uint32_t)to), bytes, length);
        send_before(session, to);
    }
    send_more(session, ggponet_send_to);
}

void ggponet_send_bye(GGPOSession *session, int to, const uint8_t *bytes, size_t length) {
    for (int at = 0; at < BYES; at++)
        ggponet_send_now(session, to, bytes, length);
}

/* Says to all other machines that this one leaves: to each by a datagram of its own. */
static void say_bye(GGPOSession *session) {
    uint8_t bytes[FAZGROND_DATAGRAM], why = session->has_desync ? FAZGROND_BYE_DESYNC : FAZGROND_BYE_LEAVES;
    size_t length;
    for (int at = 0; at < session->machines; at++)
        if (fazgrond_peer_bye(&session->peer, (uint8_t)at, why, bytes, sizeof bytes, &length) == FAZGROND_OK)
            ggponet_send_bye(session, ggponet_place_of(session, (uint32_t)at), bytes, length);
    send_more(session, ggponet_send_bye);
}

void ggponet_close_match(GGPOSession *session) {
    if (session->is_open && !session->is_spectating)
        say_bye(session);
    close_both(session);
}

GGPOErrorCode ggponet_give_words(GGPOSession *session, GGPOPlayerHandle handle, const uint32_t *words) {
    uint32_t is_running = 0;
    if (fazgrond_peer_is_running(&session->peer, &is_running) != FAZGROND_OK || is_running == 0)
        return ggponet_refuse(session, GGPO_ERRORCODE_NOT_SYNCHRONIZED, "the match has not begun");
    for (int word = 0; word < session->words; word++) {
        int player = ggponet_word_player(session, handle, word);
        int32_t answer = fazgrond_add_local_input(&session->rollback, (uint8_t)player, words[word]);
        /* Another input of this frame was taken already, as another local player's was refused: that one counts. */
        if (answer != FAZGROND_OK && answer != FAZGROND_INPUT_TWICE)
            return ggponet_refused(session, answer);
    }
    return ggponet_begin(session);
}

/* Whether anything was accepted since the last rollback. */
static bool has_news(GGPOSession *session) {
    uint32_t flag = 0;
    return fazgrond_has_news(&session->rollback, &flag) == FAZGROND_OK && flag != 0;
}

/* Rolls back if a prediction was wrong, and gives the row of this frame. */
static GGPOErrorCode synchronize(GGPOSession *session, fazgrond_row *row) {
    bool is_stepped = false;
    ggponet_take_jobs(session);
    int32_t answer = fazgrond_synchronize_input(&session->rollback, row);
    GGPOErrorCode code = ggponet_carry_out_all(session, &is_stepped);
    if (code == GGPO_OK && answer != FAZGROND_OK)
        code = ggponet_refused(session, answer);
    if (code == GGPO_OK)
        ggponet_note_settled(session);
    return code;
}

/* Between a row and the game's ggpo_advance_frame nothing is rolled back: the game may have made its step. */
GGPOErrorCode ggponet_roll_back(GGPOSession *session) {
    fazgrond_row row;
    if (!session->has_begun || session->is_row_given || !has_news(session))
        return GGPO_OK;
    return synchronize(session, &row);
}

/* If nothing came since the row was given, it is given again, so that a turn that waits leaves no trace in the session's log. */
GGPOErrorCode ggponet_row_of_match(GGPOSession *session) {
    fazgrond_row row;
    if (!session->has_begun)
        return ggponet_refuse(session, GGPO_ERRORCODE_NOT_SYNCHRONIZED, "the match has not begun");
    if (session->is_row_given && !has_news(session))
        return GGPO_OK;
    GGPOErrorCode code = synchronize(session, &row);
    if (code != GGPO_OK)
        return code;
    session->row = row;
    session->is_row_given = true;
    return GGPO_OK;
}

GGPOErrorCode ggponet_advance_match(GGPOSession *session) {
    fazgrond_reached reached;
    bool is_stepped = true;
    ggponet_take_jobs(session);
    int32_t answer = fazgrond_advance_frame(&session->rollback, &reached);
    GGPOErrorCode code = ggponet_carry_out_all(session, &is_stepped);
    if (code == GGPO_OK && is_stepped && !ggponet_take_back(session))
        code = ggponet_broken(session, "the game's step can't be taken back");
    if (code != GGPO_OK)
        return code;
    if (answer != FAZGROND_OK)
        return ggponet_refused(session, answer);
    ggponet_note_settled(session);
    ggponet_make_jobs(session);
    return GGPO_OK;
}

GGPOErrorCode ggpo_disconnect_player(GGPOSession *session, GGPOPlayerHandle handle) {
    GGPOErrorCode code = ggponet_can_call(session, "ggpo_disconnect_player");
    if (code != GGPO_OK)
        return code;
    if (session->is_spectating)
        return ggponet_only_watches(session, "ggpo_disconnect_player");
    const player *of = ggponet_player_of(session, handle);
    if (of == NULL)
        return ggponet_no_player(session, handle);
    if (!session->is_open)
        return ggponet_refuse(session, GGPO_ERRORCODE_NOT_SYNCHRONIZED, "the match is not open");
    if (of->has_left)
        return ggponet_refuse(session, GGPO_ERRORCODE_PLAYER_DISCONNECTED, "player %d has left", handle);
    if (of->type == GGPO_PLAYERTYPE_LOCAL)
        say_bye(session);
    for (int at = 0; at < session->machines; at++)
        if (at != session->me && (of->type == GGPO_PLAYERTYPE_LOCAL || ggponet_place_of(session, (uint32_t)at) == of->machine)) {
            int32_t answer = fazgrond_peer_disconnect(&session->peer, (uint8_t)at);
            if (answer != FAZGROND_OK)
                return ggponet_refused(session, answer);
        }
    return GGPO_OK;
}

GGPOErrorCode ggpo_get_network_stats(GGPOSession *session, GGPOPlayerHandle handle, GGPONetworkStats *stats) {
    fazgrond_stats measured;
    if (session == NULL)
        return GGPO_ERRORCODE_INVALID_SESSION;
    if (session->is_spectating)
        return ggponet_only_watches(session, "ggpo_get_network_stats");
    const player *of = ggponet_player_of(session, handle);
    if (of == NULL)
        return ggponet_no_player(session, handle);
    if (stats == NULL)
        return ggponet_refuse(session, GGPO_ERRORCODE_INVALID_REQUEST, "no place for the stats");
    memset(stats, 0, sizeof *stats);
    if (!session->is_open || of->type == GGPO_PLAYERTYPE_LOCAL)
        return GGPO_OK;
    int32_t code = fazgrond_peer_stats(&session->peer, (uint8_t)ggponet_machine_at(session, of->machine), &measured);
    if (code != FAZGROND_OK)
        return ggponet_refused(session, code);
    stats->network.ping = measured.is_measured != 0 ? (int)measured.round_trip : 0;
    stats->network.send_queue_len = (int)measured.words_queued;
    stats->network.kbps_sent = (int)(session->machine[of->machine].bytes_before / 1024);
    /* By the time that a packet came, its sender was half a round trip further. */
    int since = (stats->network.ping * 60 + 1000) / 2000;
    stats->timesync.local_frames_behind = measured.frames_behind + since;
    stats->timesync.remote_frames_behind = measured.their_frames_behind + since;
    return GGPO_OK;
}

fazgrond_peer *fazggpo_get_peer(GGPOSession *session) { return session != NULL && session->has_begun ? &session->peer : NULL; }

fazgrond_session *fazggpo_get_session(GGPOSession *session) { return session != NULL && session->has_begun ? &session->rollback : NULL; }
