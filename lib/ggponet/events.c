/* What the game is told of a match. */
#include "inside.h"

int ggponet_disconnect_in(const GGPOSession *session, uint32_t time) {
    return session->silent_after == 0 || time > INT32_MAX ? INT32_MAX : (int)time;
}

static int handle_of(const GGPOSession *session, uint32_t of) {
    int place = ggponet_place_of(session, of);
    return place >= 0 && place < session->machines ? session->machine[place].handle : GGPO_INVALID_HANDLE;
}

static void log_event(GGPOSession *session, const fazgrond_event *event) {
    ggpo_log(session, "event %d: machine %u, player %u, ahead %u, frame %u, field %u, gone in %u", (int)event->code,
             (unsigned)event->machine, (unsigned)event->player, (unsigned)event->frames_ahead, (unsigned)event->frame,
             (unsigned)event->field, (unsigned)event->disconnect_in);
}

/* Whether an event is for the log alone: GGPO has none like it, and a game needs none, or hasn't asked. So are those that a later library
 * may tell. */
static bool is_logged_alone(const GGPOSession *session, uint32_t code) {
    bool is_asked_for = session->tells_missing && (code == FAZGGPO_EVENTCODE_MISSING || code == FAZGGPO_EVENTCODE_STRANGERS);
    return code >= FAZGROND_RESTARTED && !is_asked_for;
}

/* The first that is heard of a machine. */
static void tell_connected(GGPOSession *session, const fazgrond_event *event) {
    GGPOEvent told;
    int place = ggponet_place_of(session, event->machine);
    if (place < 0 || place >= session->machines || session->machine[place].is_known)
        return;
    session->machine[place].is_known = true;
    memset(&told, 0, sizeof told);
    told.code = GGPO_EVENTCODE_CONNECTED_TO_PEER;
    told.u.connected.player = handle_of(session, event->machine);
    session->call.on_event(&told);
}

/* Whether a machine has left whose players nobody has played so far. */
static bool is_vacant(const GGPOSession *session, const fazgrond_event *event) {
    int handle = handle_of(session, event->machine);
    return event->code == FAZGROND_LEFT && handle >= 1 && session->player[handle - 1].is_vacant && session->player[handle - 1].has_left;
}

/* A word of a player's input has left. Whether the player has now, with all of them: of one who has left before, each epoch tells it
 * again. */
static bool note_left(GGPOSession *session, int word) {
    if (word < 1 || word > ggponet_all_words(session))
        return false;
    player *of = &session->player[ggponet_handle_of_word(session, word) - 1];
    if (of->has_left)
        return false;
    of->has_left = ++of->words_gone == session->words;
    return of->has_left;
}

/* An event as GGPO has it. */
static GGPOEvent told_of(const GGPOSession *session, const fazgrond_event *event) {
    GGPOEvent told;
    int handle = handle_of(session, event->machine);
    memset(&told, 0, sizeof told);
    told.code = (GGPOEventCode)event->code;
    switch (told.code) {
    case GGPO_EVENTCODE_SYNCHRONIZING_WITH_PEER:
    case GGPO_EVENTCODE_SYNCHRONIZED_WITH_PEER:
        told.u.synchronizing.player = handle; /* that of `synchronized` has the same place */
        told.u.synchronizing.count = (int)event->count;
        told.u.synchronizing.total = (int)event->total;
        break;
    case GGPO_EVENTCODE_DISCONNECTED_FROM_PEER: told.u.disconnected.player = ggponet_handle_of_word(session, (int)event->player); break;
    case GGPO_EVENTCODE_TIMESYNC: told.u.timesync.frames_ahead = (int)event->frames_ahead; break;
    case GGPO_EVENTCODE_CONNECTION_INTERRUPTED:
        told.u.connection_interrupted.player = handle;
        told.u.connection_interrupted.disconnect_timeout = ggponet_disconnect_in(session, event->disconnect_in);
        break;
    case GGPO_EVENTCODE_CONNECTION_RESUMED: told.u.connection_resumed.player = handle; break;
    case FAZGGPO_EVENTCODE_MACHINE_LEFT: told.u.left.player = handle; break;
    case FAZGGPO_EVENTCODE_DESYNC:
        told.u.desync.player = handle;
        told.u.desync.frame = (int)event->frame;
        break;
    case FAZGGPO_EVENTCODE_MISMATCH:
        told.u.mismatch.player = handle;
        told.u.mismatch.field = (int)event->field;
        break;
    case FAZGGPO_EVENTCODE_MISSING: told.u.missing.player = handle; break;
    case FAZGGPO_EVENTCODE_STRANGERS:
        told.u.strangers.player = handle;
        told.u.strangers.count = (int)event->count;
        break;
    default: break;
    }
    return told;
}

static void tell(GGPOSession *session, const fazgrond_event *event) {
    log_event(session, event);
    if (is_logged_alone(session, event->code))
        return;
    session->has_desync |= event->code == FAZGROND_DESYNC;
    if (event->code == FAZGROND_SYNCHRONIZING || event->code == FAZGROND_SYNCHRONIZED)
        tell_connected(session, event);
    if (is_vacant(session, event) || (event->code == FAZGROND_DISCONNECTED && !note_left(session, (int)event->player)))
        return;
    GGPOEvent told = told_of(session, event);
    session->call.on_event(&told);
}

void ggponet_note_event(GGPOSession *session, const fazgrond_event *event) {
    if (session->event_count == EVENTS)
        memmove(session->events, session->events + 1, (size_t)--session->event_count * sizeof *event);
    session->events[session->event_count++] = *event;
}

void ggponet_take_events(GGPOSession *session) {
    fazgrond_event event;
    while (fazgrond_peer_event(&session->peer, &event) == FAZGROND_OK) {
        session->is_fewer |= event.code == FAZGROND_LEFT || event.code == FAZGROND_DISCONNECTED;
        if (event.code == FAZGROND_DROPPED) /* nobody could follow this machine any more */
            ggponet_close_seats(session);
        ggponet_note_event(session, &event);
    }
}

void ggponet_tell_of_match(GGPOSession *session) {
    ggponet_take_events(session);
    for (int at = 0; at < session->event_count; at++)
        tell(session, &session->events[at]);
    session->event_count = 0;
}
