/* Players, and what is said before the match opens. */
#include "inside.h"

player *ggponet_player_of(GGPOSession *session, GGPOPlayerHandle handle) {
    if (handle < 1 || handle > session->players || !session->player[handle - 1].is_there)
        return NULL;
    return &session->player[handle - 1];
}

GGPOErrorCode ggponet_read_address_of(GGPOSession *session, const GGPOPlayer *added, struct sockaddr_in *address) {
    char text[sizeof added->u.remote.ip_address + 1] = { 0 };
    memcpy(text, added->u.remote.ip_address, sizeof added->u.remote.ip_address);
    if (session->sync_frames != 0)
        return ggponet_refuse(session, GGPO_ERRORCODE_INVALID_REQUEST, "a sync test has local players alone");
    if (!ggponet_read_address(text, added->u.remote.port, address))
        return ggponet_refuse(session, GGPO_ERRORCODE_INVALID_REQUEST, "%s is no IPv4 address", text);
    if (added->u.remote.port == 0)
        return ggponet_refuse(session, GGPO_ERRORCODE_INVALID_REQUEST, "%s without a port", text);
    return GGPO_OK;
}

GGPOErrorCode ggpo_add_player(GGPOSession *session, GGPOPlayer *added, GGPOPlayerHandle *handle) {
    if (session == NULL)
        return GGPO_ERRORCODE_INVALID_SESSION;
    if (added == NULL || handle == NULL)
        return ggponet_refuse(session, GGPO_ERRORCODE_INVALID_REQUEST, "no player, or no place for the handle");
    *handle = GGPO_INVALID_HANDLE;
    if (session->is_spectating)
        return ggponet_only_watches(session, "ggpo_add_player");
    if (added->type == GGPO_PLAYERTYPE_SPECTATOR)
        return ggponet_add_spectator(session, added, handle);
    if (added->player_num < 1 || added->player_num > session->players)
        return ggponet_refuse(session, GGPO_ERRORCODE_PLAYER_OUT_OF_RANGE, "player %d of %d", added->player_num, session->players);
    if (added->type != GGPO_PLAYERTYPE_LOCAL && added->type != GGPO_PLAYERTYPE_REMOTE)
        return ggponet_refuse(session, GGPO_ERRORCODE_INVALID_REQUEST, "%d is no type of a player", (int)added->type);
    player *place = &session->player[added->player_num - 1];
    if (session->is_open || place->is_there)
        return ggponet_refuse(session, GGPO_ERRORCODE_INVALID_REQUEST, "player %d is there already", added->player_num);
    GGPOErrorCode code = GGPO_OK;
    if (added->type == GGPO_PLAYERTYPE_REMOTE)
        code = ggponet_read_address_of(session, added, &place->address);
    if (code != GGPO_OK)
        return code;
    place->type = added->type;
    place->is_there = true;
    *handle = added->player_num;
    return GGPO_OK;
}

GGPOErrorCode ggpo_set_frame_delay(GGPOSession *session, GGPOPlayerHandle handle, int frame_delay) {
    if (session == NULL)
        return GGPO_ERRORCODE_INVALID_SESSION;
    if (session->is_spectating)
        return ggponet_only_watches(session, "ggpo_set_frame_delay");
    player *of = ggponet_player_of(session, handle);
    if (of == NULL)
        return ggponet_no_player(session, handle);
    if (session->is_open)
        return ggponet_is_too_late(session, "a frame delay");
    if (of->type != GGPO_PLAYERTYPE_LOCAL || frame_delay < 0 || frame_delay > 8)
        return ggponet_refuse(session, GGPO_ERRORCODE_INVALID_REQUEST, "a delay is a local player's, and 0 to 8 frames");
    of->delay = frame_delay;
    return GGPO_OK;
}

/* Takes milliseconds of silence, before the match opens. */
static GGPOErrorCode set_silence(GGPOSession *session, uint32_t *silence, int timeout, const char *what) {
    if (session == NULL)
        return GGPO_ERRORCODE_INVALID_SESSION;
    if (session->is_open)
        return ggponet_is_too_late(session, what);
    if (timeout < 0)
        return ggponet_refuse(session, GGPO_ERRORCODE_INVALID_REQUEST, "%d milliseconds; 0 or more were expected", timeout);
    *silence = (uint32_t)timeout;
    return GGPO_OK;
}

GGPOErrorCode ggpo_set_disconnect_timeout(GGPOSession *session, int timeout) {
    return set_silence(session, session != NULL ? &session->silent_after : NULL, timeout, "the disconnect timeout");
}

GGPOErrorCode ggpo_set_disconnect_notify_start(GGPOSession *session, int timeout) {
    return set_silence(session, session != NULL ? &session->notify_after : NULL, timeout, "when a silence is told");
}

GGPOErrorCode fazggpo_tell_missing(GGPOSession *session) {
    GGPOErrorCode code = ggponet_can_call(session, "fazggpo_tell_missing");
    if (code != GGPO_OK)
        return code;
    if (session->is_spectating)
        return ggponet_only_watches(session, "fazggpo_tell_missing");
    if (session->is_open || session->sync_frames != 0)
        return ggponet_is_too_late(session, "that a missing machine is told");
    session->tells_missing = true;
    return GGPO_OK;
}

GGPOErrorCode fazggpo_set_match(GGPOSession *session, uint64_t number) {
    if (session == NULL)
        return GGPO_ERRORCODE_INVALID_SESSION;
    if (session->is_open)
        return ggponet_is_too_late(session, "the match's number");
    session->number = number;
    return GGPO_OK;
}

GGPOErrorCode fazggpo_set_opening(GGPOSession *session, uint64_t digest) {
    if (session == NULL)
        return GGPO_ERRORCODE_INVALID_SESSION;
    if (session->is_open)
        return ggponet_is_too_late(session, "the opening's digest");
    session->opening = digest;
    return GGPO_OK;
}

GGPOErrorCode fazggpo_set_spectators(GGPOSession *session, uint64_t number) {
    if (session == NULL)
        return GGPO_ERRORCODE_INVALID_SESSION;
    if (session->is_open)
        return ggponet_is_too_late(session, "the spectators' number");
    session->has_line_number = true;
    session->line_number = number;
    return GGPO_OK;
}

GGPOErrorCode fazggpo_set_speed(GGPOSession *session, int speed) {
    if (session == NULL)
        return GGPO_ERRORCODE_INVALID_SESSION;
    if (session->is_open)
        return ggponet_is_too_late(session, "the clock's speed");
    if (speed < 1 || speed > 100)
        return ggponet_refuse(session, GGPO_ERRORCODE_INVALID_REQUEST, "a speed of %d; 1 to 100 were expected", speed);
    session->speed = (uint32_t)speed;
    return GGPO_OK;
}
