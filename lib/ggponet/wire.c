/* A wire of the game's own in the place of the socket, and numbers of pairs. */
#include "inside.h"

bool ggponet_has_wire(const GGPOSession *session) { return session->wire.send != NULL; }

void ggponet_send_by_wire(GGPOSession *session, int to, const uint8_t *bytes, size_t length) {
    session->wire.send(session->wire.wire, session->machine[to].handle, bytes, (int)length);
}

/* The other end of which a wire says that a datagram came; null if there is none. */
static const machine *end_of(GGPOSession *session, GGPOPlayerHandle handle) {
    int spectator = handle - SPECTATOR_HANDLE;
    if (session->is_spectating)
        return handle == HOST_HANDLE ? &session->machine[HOST] : NULL;
    if (spectator >= 0 && spectator < session->spectators)
        return &session->machine[MACHINES + spectator];
    const player *of = ggponet_player_of(session, handle);
    return of != NULL && of->type == GGPO_PLAYERTYPE_REMOTE ? &session->machine[of->machine] : NULL;
}

/* What the wire names as of nobody has no address, so that it is taken as nobody's. */
long ggponet_next_of_wire(GGPOSession *session, struct sockaddr_in *from, uint8_t *bytes, size_t room) {
    GGPOPlayerHandle handle;
    int length;
    memset(from, 0, sizeof *from);
    if (!session->wire.receive(session->wire.wire, &handle, bytes, (int)room, &length))
        return -1;
    const machine *end = end_of(session, handle);
    if (end == NULL || length < 0 || (size_t)length > room) {
        ggpo_log(session, "dropped: the wire has %d bytes of %d", length, handle);
        return 0;
    }
    *from = end->address;
    return length;
}

GGPOErrorCode fazggpo_set_wire(GGPOSession *session, const FazggpoWire *wire) {
    GGPOErrorCode code = ggponet_can_call(session, "fazggpo_set_wire");
    if (code != GGPO_OK)
        return code;
    if (session->sync_frames != 0)
        return ggponet_refuse(session, GGPO_ERRORCODE_UNSUPPORTED, "a sync test sends nothing");
    if (session->is_open)
        return ggponet_is_too_late(session, "a wire");
    if (wire == NULL || wire->send == NULL || wire->receive == NULL)
        return ggponet_refuse(session, GGPO_ERRORCODE_INVALID_REQUEST, "no wire, or a function of it is missing");
    ggponet_close_port(session);
    session->wire = *wire;
    return GGPO_OK;
}

/* Where a number is kept; null if the session hasn't got the other end, or that is this machine. */
static pair_number *pair_with(GGPOSession *session, GGPOPlayerHandle other) {
    int spectator = other - SPECTATOR_HANDLE;
    if (session->is_spectating)
        return other == HOST_HANDLE ? &session->machine[HOST].pair : NULL;
    if (spectator >= 0 && spectator < session->spectators)
        return &session->machine[MACHINES + spectator].pair;
    player *of = ggponet_player_of(session, other);
    return of != NULL && of->type == GGPO_PLAYERTYPE_REMOTE ? &of->pair : NULL;
}

GGPOErrorCode fazggpo_set_number(GGPOSession *session, GGPOPlayerHandle other, uint64_t number) {
    GGPOErrorCode code = ggponet_can_call(session, "fazggpo_set_number");
    if (code != GGPO_OK)
        return code;
    if (session->is_open)
        return ggponet_is_too_late(session, "the number of a pair");
    if (session->can_rejoin)
        return ggponet_refuse(session, GGPO_ERRORCODE_UNSUPPORTED, "a match into which players come back has one number for all pairs");
    pair_number *pair = pair_with(session, other);
    if (pair == NULL)
        return ggponet_refuse(session, GGPO_ERRORCODE_INVALID_PLAYER_HANDLE, "%d is no player elsewhere, and no spectator", other);
    *pair = (pair_number){ true, number };
    return GGPO_OK;
}

bool ggponet_has_pairs(const GGPOSession *session) {
    for (int at = 0; at < session->players; at++)
        if (session->player[at].pair.is_said)
            return true;
    return false;
}

GGPOErrorCode ggponet_take_pairs(GGPOSession *session) {
    for (int at = 0; at < session->machines; at++)
        session->machine[at].pair.is_said = false;
    for (int at = 0; at < session->players; at++) {
        const pair_number *said = &session->player[at].pair;
        pair_number *pair = &session->machine[session->player[at].machine].pair;
        if (said->is_said && pair->is_said && pair->number != said->number)
            return ggponet_refuse(session, GGPO_ERRORCODE_INVALID_REQUEST, "the machine of player %d was given two numbers", at + 1);
        if (said->is_said)
            *pair = *said;
    }
    return GGPO_OK;
}
