/* The game's saved states, and the requests of the session. */
#include "inside.h"

void ggponet_give_back(GGPOSession *session, saved *one) {
    if (one->taken && !ggponet_keep_state(session, one))
        session->call.free_buffer(one->buffer);
    memset(one, 0, sizeof *one);
}

bool ggponet_save(GGPOSession *session, saved *to) {
    ggponet_give_back(session, to);
    to->frame = session->frame;
    to->taken = session->call.save_game_state(&to->buffer, &to->length, &to->checksum, to->frame);
    return to->taken;
}

bool ggponet_load(GGPOSession *session, const saved *from) {
    if (!from->taken || !session->call.load_game_state(from->buffer, from->length))
        return false;
    session->frame = from->frame;
    return true;
}

bool ggponet_step_again(GGPOSession *session, const fazgrond_row *row) {
    fazgrond_row before = session->row;
    session->row = *row;
    session->in_rollback = true;
    session->is_advanced = false;
    bool done = session->call.advance_frame(0);
    session->in_rollback = false;
    session->row = before;
    session->frame++;
    if (done && !session->is_advanced)
        ggpo_log(session, "advance_frame did not call ggpo_advance_frame");
    return done;
}

bool ggponet_has_slot(GGPOSession *session, uint32_t slot) {
    if (slot < session->slot_count)
        return true;
    size_t count = (size_t)slot + 16;
    saved *more = realloc(session->slots, count * sizeof *more);
    if (more == NULL)
        return false;
    memset(more + session->slot_count, 0, (count - session->slot_count) * sizeof *more);
    session->slots = more;
    session->slot_count = count;
    return true;
}

static bool is_same_row(const fazgrond_row *one, const fazgrond_row *other) {
    return one->count == other->count && one->gone == other->gone
        && memcmp(one->words, other->words, one->count * sizeof one->words[0]) == 0;
}

bool ggponet_take_back(GGPOSession *session) { return session->at >= 0 && ggponet_load(session, &session->slots[session->at]); }

/* Has the game go on by a frame. If it has done so itself, with the same inputs, nothing is left to do. */
static bool step(GGPOSession *session, const fazgrond_row *row, bool *is_stepped) {
    bool is_own = *is_stepped;
    *is_stepped = false;
    if (is_own && is_same_row(row, &session->row)) {
        session->frame++;
        session->at = -1;
        return true;
    }
    /* Other inputs came since the game asked for them. */
    if (is_own && !ggponet_take_back(session))
        return false;
    session->at = -1;
    return ggponet_step_again(session, row);
}

/* Carries out a request. `is_stepped` says that the game has made the next step itself. Null, or what went wrong. */
static const char *carry_out(GGPOSession *session, const fazgrond_request *request, bool *is_stepped) {
    saved *slot = NULL;
    if (request->kind != FAZGROND_STEP) {
        if (!ggponet_has_slot(session, request->slot))
            return "no memory for a saved state";
        slot = &session->slots[request->slot];
    }
    switch (request->kind) {
    case FAZGROND_LOAD:
        *is_stepped = false;
        session->at = request->slot;
        ggponet_note_use(session, slot);
        return ggponet_load(session, slot) ? NULL : "load_game_state failed";
    case FAZGROND_SAVE:
        session->at = request->slot;
        if (*is_stepped || !ggponet_save(session, slot))
            return "save_game_state failed";
        if (session->is_at_seam && request->slot == 0 && session->frame == session->base)
            ggponet_host_from(session, slot);
        return NULL;
    case FAZGROND_STEP: return step(session, &request->row, is_stepped) ? NULL : "advance_frame failed";
    case FAZGROND_FREE:
        if (session->at == (int64_t)request->slot)
            session->at = -1;
        ggponet_give_back(session, slot);
        return NULL;
    default: return "the library asks for what isn't known here";
    }
}

GGPOErrorCode ggponet_carry_out_all(GGPOSession *session, bool *is_stepped) {
    fazgrond_request requests[32];
    size_t count;
    const char *why = NULL;
    while ((count = fazgrond_take_requests(&session->rollback, requests, 32)) > 0)
        for (size_t at = 0; at < count && why == NULL; at++)
            why = carry_out(session, &requests[at], is_stepped);
    return why == NULL ? GGPO_OK : ggponet_broken(session, why);
}

GGPOErrorCode ggponet_begin(GGPOSession *session) {
    if (session->has_begun)
        return GGPO_OK;
    if (!ggponet_has_slot(session, 0) || !ggponet_save(session, &session->slots[0]))
        return ggponet_broken(session, "save_game_state failed");
    session->at = 0;
    session->has_begun = true;
    ggponet_host_from(session, &session->slots[0]);
    return GGPO_OK;
}

/* The last settled state, and its frame; null if there is none. */
static saved *settled_state(GGPOSession *session, uint32_t *frame) {
    uint32_t slot;
    if (!session->has_begun || fazgrond_settled_slot(&session->rollback, frame, &slot) != FAZGROND_OK)
        return NULL;
    return slot < session->slot_count && session->slots[slot].taken ? &session->slots[slot] : NULL;
}

void ggponet_note_settled(GGPOSession *session) {
    uint32_t frame;
    const saved *state = settled_state(session, &frame);
    if (state == NULL || frame == session->noted)
        return;
    session->noted = frame;
    fazgrond_peer_note_settled(&session->peer, &session->rollback, (uint32_t)state->checksum);
}

void ggponet_free_states(GGPOSession *session) {
    for (size_t at = 0; at < session->slot_count; at++)
        ggponet_give_back(session, &session->slots[at]);
    for (size_t at = 0; at <= MOST_SYNC_FRAMES; at++)
        ggponet_give_back(session, &session->after[at]);
    free(session->slots);
}

GGPOErrorCode fazggpo_get_settled_state(GGPOSession *session, int *frame, unsigned char **buffer, int *length) {
    uint32_t settled = 0;
    if (session == NULL)
        return GGPO_ERRORCODE_INVALID_SESSION;
    if (frame == NULL || buffer == NULL || length == NULL)
        return ggponet_refuse(session, GGPO_ERRORCODE_INVALID_REQUEST, "no place for the state");
    const saved *state = session->is_spectating ? NULL : settled_state(session, &settled);
    if (state == NULL)
        return ggponet_refuse(session, GGPO_ERRORCODE_NOT_SYNCHRONIZED, "no state is there yet");
    *frame = session->base + (int)settled;
    *buffer = state->buffer;
    *length = state->length;
    return GGPO_OK;
}
