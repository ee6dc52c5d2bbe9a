/* A sync test: the frames since the last check are played once more. */
#include "inside.h"

GGPOErrorCode ggpo_start_synctest(GGPOSession **session, GGPOSessionCallbacks *cb, char *game, int num_players, int input_size,
                                  int frames) {
    if (frames < 1 || frames > MOST_SYNC_FRAMES)
        return ggponet_refuse(NULL, GGPO_ERRORCODE_INVALID_REQUEST, "%d frames; 1 to %d were expected", frames, MOST_SYNC_FRAMES);
    GGPOErrorCode code = ggponet_make_session(session, cb, game, num_players, input_size);
    if (code == GGPO_OK)
        (*session)->sync_frames = frames;
    return code;
}

void ggponet_run_sync_test(GGPOSession *session) {
    GGPOEvent event;
    if (session->is_running)
        return;
    memset(&event, 0, sizeof event);
    event.code = GGPO_EVENTCODE_RUNNING;
    session->is_running = true;
    session->call.on_event(&event);
}

GGPOErrorCode ggponet_begin_sync_test(GGPOSession *session) {
    if (!session->is_running)
        return ggponet_refuse(session, GGPO_ERRORCODE_NOT_SYNCHRONIZED, "ggpo_idle was not called yet");
    if (!session->after[0].taken && !ggponet_save(session, &session->after[0]))
        return ggponet_broken(session, "save_game_state failed");
    session->row.count = (uint32_t)ggponet_all_words(session);
    session->is_row_given = true;
    return GGPO_OK;
}

static bool is_same_state(const saved *one, const saved *other) {
    if (one->checksum != other->checksum)
        return false;
    return one->checksum != 0 || (one->length == other->length && memcmp(one->buffer, other->buffer, (size_t)one->length) == 0);
}

static void log_state(GGPOSession *session, const char *when, const saved *state) {
    char name[48];
    snprintf(name, sizeof name, "state-%d-%s.log", state->frame, when);
    if (session->call.log_game_state != NULL)
        session->call.log_game_state(name, state->buffer, state->length);
}

static GGPOErrorCode differs(GGPOSession *session, const saved *first, const saved *second) {
    GGPOEvent event;
    memset(&event, 0, sizeof event);
    event.code = FAZGGPO_EVENTCODE_DESYNC;
    event.u.desync.player = GGPO_INVALID_HANDLE;
    event.u.desync.frame = first->frame;
    log_state(session, "first", first);
    log_state(session, "again", second);
    session->call.on_event(&event);
    session->is_broken = true;
    return ggponet_refuse(session, GGPO_ERRORCODE_GENERAL_FAILURE, "frame %d came out different: checksum %d, and then %d", first->frame,
                          first->checksum, second->checksum);
}

static GGPOErrorCode play_again(GGPOSession *session) {
    saved again;
    memset(&again, 0, sizeof again);
    if (!ggponet_load(session, &session->after[0]))
        return ggponet_broken(session, "load_game_state failed");
    for (int at = 0; at < session->sync_frames; at++) {
        if (!ggponet_step_again(session, &session->rows[at]))
            return ggponet_broken(session, "advance_frame failed");
        if (!ggponet_save(session, &again))
            return ggponet_broken(session, "save_game_state failed");
        GGPOErrorCode code = GGPO_OK;
        if (!is_same_state(&session->after[at + 1], &again))
            code = differs(session, &session->after[at + 1], &again);
        ggponet_give_back(session, &again);
        if (code != GGPO_OK)
            return code;
    }
    for (int at = 0; at < session->sync_frames; at++)
        ggponet_give_back(session, &session->after[at]);
    session->after[0] = session->after[session->sync_frames];
    session->after[session->sync_frames] = again;
    return GGPO_OK;
}

GGPOErrorCode ggponet_advance_sync_test(GGPOSession *session) {
    int at = session->frame - session->after[0].frame;
    session->rows[at] = session->row;
    memset(&session->row, 0, sizeof session->row);
    session->frame++;
    if (!ggponet_save(session, &session->after[at + 1]))
        return ggponet_broken(session, "save_game_state failed");
    return at + 1 < session->sync_frames ? GGPO_OK : play_again(session);
}
