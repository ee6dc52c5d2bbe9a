/* Players who come back into a match: seats for them beside a session that plays, and a session that comes in. */
#include "inside.h"

enum {
    SURELY = 500,   /* milliseconds that a match was running elsewhere, and not here, before this machine comes in */
    IN_VAIN = 3000, /* and since it came in without that the match runs here */
    MOST_STEPS = 30
};

GGPOErrorCode fazggpo_rejoin(GGPOSession *session) {
    GGPOErrorCode code = ggponet_can_call(session, "fazggpo_rejoin");
    if (code != GGPO_OK)
        return code;
    if (session->is_spectating)
        return ggponet_only_watches(session, "fazggpo_rejoin");
    if (session->is_open || session->sync_frames != 0)
        return ggponet_is_too_late(session, "that players come back");
    if (session->spectators > 0)
        return ggponet_refuse(session, GGPO_ERRORCODE_UNSUPPORTED, "players come back into no match with spectators");
    if (ggponet_has_pairs(session))
        return ggponet_refuse(session, GGPO_ERRORCODE_UNSUPPORTED, "a match into which players come back has one number for all pairs");
    session->can_rejoin = true;
    return GGPO_OK;
}

GGPOErrorCode fazggpo_set_vacant(GGPOSession *session, GGPOPlayerHandle handle) {
    GGPOErrorCode code = ggponet_can_call(session, "fazggpo_set_vacant");
    if (code != GGPO_OK)
        return code;
    if (session->is_spectating)
        return ggponet_only_watches(session, "fazggpo_set_vacant");
    player *of = ggponet_player_of(session, handle);
    if (of == NULL)
        return ggponet_no_player(session, handle);
    if (session->is_open)
        return ggponet_is_too_late(session, "that nobody plays a player");
    if (!session->can_rejoin)
        return ggponet_refuse(session, GGPO_ERRORCODE_INVALID_REQUEST, "nobody comes into a match without fazggpo_rejoin");
    of->is_vacant = true;
    return GGPO_OK;
}

int ggponet_place_of(const GGPOSession *session, uint32_t machine) {
    return machine < MACHINES ? session->place_of[machine] : GGPO_INVALID_HANDLE;
}

int ggponet_machine_at(const GGPOSession *session, int place) {
    for (int at = 0; at < MACHINES; at++)
        if (session->place_of[at] == place)
            return at;
    return MACHINES;
}

/* The number of the line between two machines, by their places. */
static uint64_t line_number(const GGPOSession *session, int one, int other) {
    int places[2] = { one < other ? one : other, one < other ? other : one };
    return ggponet_hash_bytes(session->number ^ 0x72656a6f696e, places, sizeof places) | 1;
}

uint64_t ggponet_comers(const GGPOSession *session) { return ggponet_hash_bytes(session->number, "comers", 6) | 1; }

static void send_by(void *of, uint32_t to, const uint8_t *bytes, size_t length) { ggponet_send_to(of, (int)to, bytes, length); }

/* The players of a machine, by its place: a bit for each word of their inputs. */
static uint32_t players_at(const GGPOSession *session, int place) {
    uint32_t players = 0;
    for (int at = 0; at < ggponet_all_words(session); at++)
        players |= session->player[at / session->words].machine == place ? 1u << at : 0;
    return players;
}

GGPOErrorCode ggponet_open_seats(GGPOSession *session) {
    faz_hosting *hosting = &session->hosting;
    faz_comer *comer = &session->comer;
    memset(hosting, 0, sizeof *hosting);
    memset(comer, 0, sizeof *comer);
    if (!ggponet_new_draw(&hosting->random) || !ggponet_new_draw(&comer->random))
        return ggponet_no_draw(session);
    hosting->session = &session->rollback;
    hosting->peer = &session->peer;
    hosting->me = (uint32_t)session->me;
    hosting->digest = comer->digest = session->digest;
    hosting->send = comer->send = send_by;
    hosting->of = comer->of = session;
    for (int at = 0; at < session->machines; at++) {
        if (at == session->place)
            continue;
        comer->machines |= 1u << at;
        comer->numbers[at] = line_number(session, session->place, at);
        hosting->seat[at] = (faz_seat){ .is_taken = true,
                                        .number = comer->numbers[at],
                                        .players = players_at(session, at),
                                        .ticket = fazgrond_ticket(ggponet_comers(session), (uint32_t)at) };
    }
    comer->players = players_at(session, session->place);
    comer->limit = UINT32_MAX;
    comer->only_asks = true;
    faz_comer_begin(comer);
    return GGPO_OK;
}

/* Where each machine of this epoch has its place. Those that are no more in it stay where they were. */
static void place_machines(GGPOSession *session) {
    for (int at = 0; at < ggponet_all_words(session); at++) {
        uint32_t owner = session->epoch.owners[at];
        if (owner < MACHINES)
            session->place_of[owner] = session->player[at / session->words].machine;
    }
}

/* ---- At a machine that plays. */

void ggponet_host_from(GGPOSession *session, const saved *state) {
    if (session->can_rejoin)
        (void)faz_hosting_begin(&session->hosting, state->buffer, (size_t)state->length);
    session->is_at_seam = false;
}

/* The game is told which players are back, and whose are nobody's. */
static void tell_epoch(GGPOSession *session) {
    GGPOEvent told;
    memset(&told, 0, sizeof told);
    told.code = FAZGGPO_EVENTCODE_EPOCH;
    told.u.epoch.frame = session->base;
    for (int at = 0; at < session->players; at++) {
        player *of = &session->player[at];
        bool is_there = session->epoch.owners[at * session->words] < MACHINES;
        if (is_there && of->has_left)
            told.u.epoch.came |= 1 << at;
        of->has_left = !is_there;
        of->words_gone = is_there ? 0 : session->words;
    }
    ggpo_log(session, "epoch from frame %d on; came: %d", session->base, told.u.epoch.came);
    session->call.on_event(&told);
}

static void remember_row(GGPOSession *session, const fazgrond_row *row) {
    session->rows_before[session->remembered % ROWS_BEFORE] = (settled_row){ session->remembered, *row };
    session->remembered++;
}

/* Its settled rows are forgotten with the session that has them. */
static void remember_rows(GGPOSession *session) {
    fazgrond_row row;
    while (fazgrond_settled_row(&session->rollback, (uint32_t)(session->remembered - session->base), &row) == FAZGROND_OK)
        remember_row(session, &row);
}

/* As fazgrond_peer_go_on. Jobs are given up once the epoch is over. */
static int32_t begin_next(GGPOSession *session) {
    uint32_t frames = 0;
    int32_t answer = fazgrond_peer_go_on(&session->peer, &session->rollback, &frames);
    if (answer != FAZGROND_JOBS_OUT)
        return answer;
    ggponet_leave_jobs(session);
    return fazgrond_peer_go_on(&session->peer, &session->rollback, &frames);
}

/* Whether this epoch is over, as fazgrond_peer_go_on says. All rows of it are played before, so that they are told afterwards; but if
 * somebody has left, only once it isn't over: rows past the end may be known then. */
static GGPOErrorCode end_epoch(GGPOSession *session, int32_t *answer) {
    *answer = FAZGROND_NOTHING;
    remember_rows(session);
    if (session->is_fewer)
        *answer = begin_next(session);
    session->is_fewer = false;
    if (*answer != FAZGROND_NOTHING)
        return GGPO_OK;
    GGPOErrorCode code = ggponet_roll_back(session);
    if (code != GGPO_OK)
        return code;
    remember_rows(session);
    *answer = begin_next(session);
    return GGPO_OK;
}

/* The next epoch, if this one is over. It is to the game as a rollback. */
GGPOErrorCode ggponet_go_on(GGPOSession *session) {
    int32_t answer;
    bool is_stepped = false;
    if (!session->can_rejoin || !session->has_begun || session->is_row_given)
        return GGPO_OK;
    GGPOErrorCode code = end_epoch(session, &answer);
    if (code != GGPO_OK || answer == FAZGROND_NOTHING)
        return code;
    if (answer == FAZGROND_OK)
        answer = fazgrond_peer_epoch(&session->peer, &session->epoch);
    if (answer != FAZGROND_OK)
        return ggponet_refused(session, answer);
    session->base = (int)session->epoch.base;
    session->is_at_seam = true;
    session->remembered = session->base; /* who is alone has settled frames past the end, which are played again */
    session->noted = UINT32_MAX;
    place_machines(session);
    ggponet_note_epoch(session);
    code = ggponet_carry_out_all(session, &is_stepped);
    if (code == GGPO_OK)
        tell_epoch(session);
    return code;
}

void ggponet_host_turn(GGPOSession *session) {
    if (session->can_rejoin && session->has_begun)
        faz_hosting_turn(&session->hosting, ggponet_millis(session));
}

void ggponet_hear_who_comes(GGPOSession *session, int place, const uint8_t *bytes, size_t length) {
    if (!session->can_rejoin)
        return;
    if (session->has_begun)
        faz_hosting_hear(&session->hosting, (uint32_t)place, bytes, length, ggponet_millis(session));
    else
        faz_comer_hear(&session->comer, (uint32_t)place, bytes, length, ggponet_millis(session));
}

/* ---- At one that comes. */

static fazgrond_settings settings_in(const GGPOSession *session, uint32_t me) {
    fazgrond_settings settings = fazgrond_settings_for((uint32_t)ggponet_all_words(session));
    settings.threshold = session->epoch.threshold;
    for (int at = 0; at < ggponet_all_words(session); at++)
        if (session->epoch.owners[at] == me) {
            settings.local |= 1u << at;
            settings.delays[at] = session->epoch.delays[at];
        }
    return settings;
}

/* This machine opens its session and its peer where the others are. */
static GGPOErrorCode come_in(GGPOSession *session, const faz_next *next) {
    session->epoch = next->epoch;
    session->base = (int)next->epoch.base;
    session->me = (int)next->me;
    session->hosting.me = next->me;
    session->is_coming = false;
    session->came_in_at = ggponet_millis(session);
    place_machines(session);
    fazgrond_settings settings = settings_in(session, next->me);
    GGPOErrorCode code = ggponet_open_lasting(session, &settings);
    if (code == GGPO_OK)
        tell_epoch(session);
    return code;
}

/* The opening is kept, should nobody be left of the match that has this state. */
static GGPOErrorCode load(GGPOSession *session, const faz_next *next) {
    if (!ggponet_has_slot(session, 0) || (!session->slots[0].taken && !ggponet_save(session, &session->slots[0])))
        return ggponet_broken(session, "save_game_state failed");
    unsigned char *buffer = malloc(next->length);
    if (buffer == NULL)
        return ggponet_broken(session, "no memory for the match's state");
    memcpy(buffer, next->state, next->length);
    bool is_loaded = session->call.load_game_state(buffer, (int)next->length);
    free(buffer);
    session->frame = session->came_from = session->remembered = (int)next->frame;
    return is_loaded ? GGPO_OK : ggponet_broken(session, "load_game_state failed");
}

/* Loads and steps what came. */
static GGPOErrorCode take_what_came(GGPOSession *session) {
    GGPOErrorCode code = GGPO_OK;
    for (int count = 0; count < MOST_STEPS && code == GGPO_OK && session->is_coming; count++) {
        faz_next next = faz_comer_next(&session->comer);
        if (next.what == FAZ_NOTHING)
            return GGPO_OK;
        if (next.what == FAZ_LOAD)
            code = load(session, &next);
        else if (next.what == FAZ_IN)
            code = come_in(session, &next);
        else if (ggponet_step_again(session, &next.row))
            remember_row(session, &next.row);
        else
            code = ggponet_broken(session, "advance_frame failed");
    }
    return code;
}

/* Whether the match has been running elsewhere for long, and isn't here. */
static bool is_left_out(GGPOSession *session) {
    uint32_t is_running = 0;
    return session->comer.only_asks && session->comer.is_told && ggponet_millis(session) - session->comer.told_at > SURELY
        && fazgrond_peer_is_running(&session->peer, &is_running) == FAZGROND_OK && is_running == 0;
}

/* Whether nobody of the match is there any more into which this machine comes, or has come without being heard in it. */
static bool is_in_vain(GGPOSession *session) {
    uint32_t is_running = 0;
    if (session->is_coming)
        return session->has_no_host && !ggponet_comes_later(session);
    return session->comer.is_in && ggponet_millis(session) - session->came_in_at > IN_VAIN
        && fazgrond_peer_is_running(&session->peer, &is_running) == FAZGROND_OK && is_running == 0;
}

/* Another match may begin then, with all who are begun anew; and if this one runs somewhere after all, this machine asks to come again. */
static GGPOErrorCode begin_anew(GGPOSession *session) {
    ggpo_log(session, "nobody is heard in the match that ran: this machine begins anew");
    if (session->slot_count > 0 && session->slots[0].taken && !ggponet_load(session, &session->slots[0]))
        return ggponet_broken(session, "load_game_state failed");
    return ggponet_open_anew(session);
}

/* Who comes later has no peer that would tell it that the others aren't there. */
static void note_if_alone(GGPOSession *session) {
    bool was_alone = session->is_alone;
    session->is_alone = session->is_coming && session->has_no_host && session->silent_after > 0
        && ggponet_millis(session) - session->comer.moved_at >= session->silent_after;
    for (int at = 0; at < session->machines && session->is_alone && !was_alone; at++)
        if (at != session->place)
            ggponet_note_event(session, &(fazgrond_event){ .code = FAZGROND_MISSING, .machine = (uint32_t)at });
}

void ggponet_ask_to_come(GGPOSession *session) {
    if (!session->can_rejoin || session->has_begun || session->comer.is_in)
        return;
    session->has_no_host = faz_comer_turn(&session->comer, ggponet_millis(session)) == FAZGROND_NOTHING;
    note_if_alone(session);
}

void ggponet_begin_to_come(GGPOSession *session) {
    ggpo_log(session, "this machine comes into a match that runs");
    fazgrond_peer_close(&session->peer);
    fazgrond_close(&session->rollback);
    session->comer.only_asks = false;
    session->is_coming = true;
}

GGPOErrorCode ggponet_come(GGPOSession *session) {
    if (!session->can_rejoin || session->has_begun)
        return GGPO_OK;
    if (is_in_vain(session))
        return begin_anew(session);
    if (is_left_out(session))
        ggponet_begin_to_come(session);
    return session->is_coming ? take_what_came(session) : GGPO_OK;
}

void ggponet_close_seats(GGPOSession *session) {
    faz_hosting_close(&session->hosting);
    faz_comer_close(&session->comer);
}
