/* The two ends of a spectator's line. */
#include "inside.h"

int ggponet_spectator_at(const GGPOSession *session, const struct sockaddr_in *address) {
    for (int at = 0; at < session->spectators; at++)
        if (ggponet_is_address(&session->machine[MACHINES + at].address, address))
            return at;
    return -1;
}

GGPOErrorCode ggponet_add_spectator(GGPOSession *session, const GGPOPlayer *added, GGPOPlayerHandle *handle) {
    struct sockaddr_in address;
    if (session->can_rejoin)
        return ggponet_refuse(session, GGPO_ERRORCODE_UNSUPPORTED, "spectators aren't for a match into which players come back");
    if (session->spectators == GGPO_MAX_SPECTATORS)
        return ggponet_refuse(session, GGPO_ERRORCODE_TOO_MANY_SPECTATORS, "there are %d spectators already", GGPO_MAX_SPECTATORS);
    if (session->is_open)
        return ggponet_refuse(session, GGPO_ERRORCODE_INVALID_REQUEST, "a spectator has to be added before the match opens");
    GGPOErrorCode code = ggponet_read_address_of(session, added, &address);
    if (code != GGPO_OK)
        return code;
    if (ggponet_spectator_at(session, &address) >= 0)
        return ggponet_refuse(session, GGPO_ERRORCODE_INVALID_REQUEST, "another spectator has this address");
    machine *made = &session->machine[MACHINES + session->spectators];
    made->address = address;
    made->handle = SPECTATOR_HANDLE + session->spectators++;
    made->heard = 1;
    *handle = made->handle;
    return GGPO_OK;
}

/* The number of a spectator's line: another one for each port, unless the game has said which. */
static uint64_t line_number(const GGPOSession *session, const pair_number *pair, unsigned short port) {
    char text[32];
    int count = snprintf(text, sizeof text, " spectator %d", (int)port);
    return pair->is_said ? pair->number
                         : ggponet_hash_bytes(session->has_line_number ? session->line_number : session->number, text, (size_t)count);
}

/* A spectator's line: both ends have to have the same settings but for the draw, so they are made of what both know. Who owns
 * which player, which a spectator isn't told, is the same for all matches of so many players. */
static fazgrond_line_settings line_settings(const GGPOSession *session, const pair_number *pair, unsigned short port) {
    fazgrond_line_settings settings;
    memset(&settings, 0, sizeof settings);
    settings.number = line_number(session, pair, port);
    settings.digest = session->digest;
    settings.opening = session->opening;
    settings.silent_after = session->silent_after;
    settings.machines = 2;
    for (int at = 0; at < FAZGROND_PLAYERS; at++)
        settings.owners[at] = at < ggponet_all_words(session) ? (uint32_t)at % 2 : FAZGROND_NO_PLAYER;
    return settings;
}

GGPOErrorCode ggponet_open_lines(GGPOSession *session) {
    for (int at = 0; at < session->spectators; at++) {
        const machine *other = &session->machine[MACHINES + at];
        fazgrond_line_settings settings = line_settings(session, &other->pair, ntohs(other->address.sin_port));
        if (!ggponet_new_draw(&settings.draw))
            return ggponet_no_draw(session);
        int32_t code = fazgrond_line_open(&session->line[at], &settings);
        if (code != FAZGROND_OK)
            return ggponet_refused(session, code);
    }
    return GGPO_OK;
}

GGPOErrorCode ggponet_open_viewer(GGPOSession *session) {
    if (session->is_open)
        return GGPO_OK;
    fazgrond_line_settings settings = line_settings(session, &session->machine[HOST].pair, session->port);
    if (!ggponet_new_draw(&settings.draw))
        return ggponet_no_draw(session);
    int32_t code = fazgrond_viewer_open(&session->viewer, &settings);
    session->is_open = code == FAZGROND_OK;
    return ggponet_refused(session, code);
}

/* Notes what the library answered to a datagram of the other end of a line. One that wasn't taken says nothing, but for one
 * that ends the line: the other end means another match. */
static void note_answer(const GGPOSession *session, machine *other, int32_t code) {
    if (code == FAZGROND_OK)
        other->heard_at = ggponet_millis(session);
    if (code == FAZGROND_MISMATCHED || (code == FAZGROND_OK && other->heard != FAZGROND_MISMATCHED))
        other->heard = code;
}

void ggponet_hear_spectator(GGPOSession *session, int at, const uint8_t *bytes, size_t length) {
    machine *other = &session->machine[MACHINES + at];
    if (other->stage != GONE)
        note_answer(session, other, fazgrond_line_receive(&session->line[at], bytes, length, ggponet_millis(session)));
}

void ggponet_hear_host(GGPOSession *session, const uint8_t *bytes, size_t length) {
    machine *other = &session->machine[HOST];
    uint32_t rows;
    if (other->stage != GONE)
        note_answer(session, other, fazgrond_viewer_receive(&session->viewer, bytes, length, ggponet_millis(session), &rows));
}

void ggponet_send_to_host(GGPOSession *session) {
    uint8_t bytes[FAZGROND_DATAGRAM];
    size_t length;
    if (session->machine[HOST].stage != GONE
        && fazgrond_viewer_send(&session->viewer, ggponet_millis(session), bytes, sizeof bytes, &length) == FAZGROND_OK)
        ggponet_send_to(session, HOST, bytes, length);
}

void ggponet_send_to_spectators(GGPOSession *session) {
    uint8_t bytes[FAZGROND_DATAGRAM];
    size_t length;
    for (int at = 0; at < session->spectators; at++)
        if (session->machine[MACHINES + at].stage != GONE
            && fazgrond_line_send(&session->line[at], &session->rollback, ggponet_millis(session), bytes, sizeof bytes, &length)
                == FAZGROND_OK)
            ggponet_send_to(session, MACHINES + at, bytes, length);
}

static void say_bye_to_spectator(GGPOSession *session, int at) {
    uint8_t bytes[FAZGROND_DATAGRAM];
    size_t length;
    if (fazgrond_line_bye(&session->line[at], bytes, sizeof bytes, &length) == FAZGROND_OK)
        ggponet_send_bye(session, MACHINES + at, bytes, length);
}

static void say_bye_to_host(GGPOSession *session) {
    uint8_t bytes[FAZGROND_DATAGRAM];
    size_t length;
    if (fazgrond_viewer_bye(&session->viewer, bytes, sizeof bytes, &length) == FAZGROND_OK)
        ggponet_send_bye(session, HOST, bytes, length);
}

/* Tells an event of the other end of a line. The handle has one place in all of them. */
static void tell_of(GGPOSession *session, GGPOEventCode code, const machine *other, int count, int total) {
    GGPOEvent told;
    memset(&told, 0, sizeof told);
    told.code = code;
    told.u.synchronizing.player = other->handle;
    told.u.synchronizing.count = count;
    told.u.synchronizing.total = total;
    ggpo_log(session, "event %d: %d", (int)code, other->handle);
    session->call.on_event(&told);
}

/* The other end is there. */
static void tell_stage(GGPOSession *session, machine *other, const fazgrond_line_state *state) {
    if (other->stage == UNHEARD && other->heard == FAZGROND_OK) {
        other->stage = HEARD;
        other->greeted_at = ggponet_millis(session);
        tell_of(session, GGPO_EVENTCODE_CONNECTED_TO_PEER, other, 0, 0);
        tell_of(session, GGPO_EVENTCODE_SYNCHRONIZING_WITH_PEER, other, 1, 2);
    }
    if (other->stage == HEARD && state->is_playing != 0) {
        other->stage = PLAYING;
        tell_of(session, GGPO_EVENTCODE_SYNCHRONIZED_WITH_PEER, other, 0, 0);
        if (session->is_spectating) {
            session->is_running = true;
            tell_of(session, GGPO_EVENTCODE_RUNNING, other, 0, 0);
        }
    }
}

/* The other end is silent, or was heard again. */
static void tell_silence(GGPOSession *session, machine *other, const fazgrond_line_state *state) {
    uint32_t time = ggponet_millis(session) - other->heard_at, left = session->silent_after - state->silence;
    bool is_silent = other->stage == PLAYING && session->notify_after > 0 && time > session->notify_after;
    if (is_silent == other->is_silent)
        return;
    other->is_silent = is_silent;
    if (is_silent)
        tell_of(session, GGPO_EVENTCODE_CONNECTION_INTERRUPTED, other,
                ggponet_disconnect_in(session, state->silence < session->silent_after ? left : 0), 0);
    else
        tell_of(session, GGPO_EVENTCODE_CONNECTION_RESUMED, other, 0, 0);
}

/* Whether the host is there for another spectator: for the one before, who was at this port, since this one was begun anew. */
static bool is_for_another(const GGPOSession *session, const machine *other) {
    return session->is_spectating && other->stage == HEARD && session->silent_after > 0
        && ggponet_millis(session) - other->greeted_at > session->silent_after;
}

/* Tells what is new of the other end of a line, and whether the line is over. That a spectator means another match is no matter
 * of the host's game: to it that one has left. */
static bool tell_of_line(GGPOSession *session, machine *other, const fazgrond_line_state *state) {
    bool is_other = other->heard == FAZGROND_MISMATCHED;
    tell_stage(session, other, state);
    if (is_other || state->has_ended != 0 || state->is_silent != 0 || is_for_another(session, other)) {
        other->stage = GONE;
        GGPOEventCode code = GGPO_EVENTCODE_DISCONNECTED_FROM_PEER;
        tell_of(session, is_other && session->is_spectating ? FAZGGPO_EVENTCODE_MISMATCH : code, other, 0, 0);
        return true;
    }
    tell_silence(session, other, state);
    return false;
}

void ggponet_tell_of_spectators(GGPOSession *session) {
    fazgrond_line_state state;
    for (int at = 0; at < session->spectators; at++) {
        machine *other = &session->machine[MACHINES + at];
        if (other->stage != GONE && fazgrond_line_look(&session->line[at], ggponet_millis(session), &state) == FAZGROND_OK
            && tell_of_line(session, other, &state)) {
            say_bye_to_spectator(session, at);
            fazgrond_line_close(&session->line[at]);
        }
    }
}

/* What has come of the rows stays, so that they can be played. */
void ggponet_tell_of_host(GGPOSession *session) {
    fazgrond_line_state state;
    machine *other = &session->machine[HOST];
    if (other->stage != GONE && fazgrond_viewer_look(&session->viewer, ggponet_millis(session), &state) == FAZGROND_OK
        && tell_of_line(session, other, &state))
        say_bye_to_host(session);
}

GGPOErrorCode ggponet_next_row(GGPOSession *session) {
    if (session->is_row_given)
        return GGPO_OK;
    int32_t code = session->is_open ? fazgrond_viewer_row(&session->viewer, &session->row) : FAZGROND_NOTHING;
    session->is_row_given = code == FAZGROND_OK;
    if (code != FAZGROND_NOTHING)
        return ggponet_refused(session, code);
    if (session->machine[HOST].stage == GONE)
        return ggponet_refuse(session, GGPO_ERRORCODE_PLAYER_DISCONNECTED, "the host is gone, and all that it told is played");
    if (!session->is_running)
        return ggponet_refuse(session, GGPO_ERRORCODE_NOT_SYNCHRONIZED, "the host was not heard yet");
    return ggponet_refuse(session, GGPO_ERRORCODE_PREDICTION_THRESHOLD, "no settled frame is there yet");
}

void ggponet_close_lines(GGPOSession *session) {
    if (session->is_spectating)
        say_bye_to_host(session);
    for (int at = 0; at < session->spectators; at++) {
        say_bye_to_spectator(session, at);
        fazgrond_line_close(&session->line[at]);
    }
    fazgrond_viewer_close(&session->viewer);
}

GGPOErrorCode fazggpo_get_watched(GGPOSession *session, GGPOPlayerHandle handle, int *frame) {
    fazgrond_line_state state;
    int at = handle - SPECTATOR_HANDLE;
    if (session == NULL)
        return GGPO_ERRORCODE_INVALID_SESSION;
    if (at < 0 || at >= session->spectators)
        return ggponet_refuse(session, GGPO_ERRORCODE_INVALID_PLAYER_HANDLE, "%d is no spectator of the session", handle);
    if (frame == NULL)
        return ggponet_refuse(session, GGPO_ERRORCODE_INVALID_REQUEST, "no place for the frame");
    if (session->machine[MACHINES + at].stage == GONE)
        return ggponet_refuse(session, GGPO_ERRORCODE_PLAYER_DISCONNECTED, "the spectator has left");
    if (session->machine[MACHINES + at].stage != PLAYING)
        return ggponet_refuse(session, GGPO_ERRORCODE_NOT_SYNCHRONIZED, "the spectator was not heard yet");
    int32_t code = fazgrond_line_look(&session->line[at], ggponet_millis(session), &state);
    if (code == FAZGROND_OK)
        *frame = (int)state.rows;
    return ggponet_refused(session, code);
}
