/* GGPO's calls over a session and a peer of fazgrond.h, and a UDP socket. See ggponet.h. */
#include "inside.h"

enum {
    MOST_AT_ONCE = 256, /* datagrams that are taken in one go */
    SEND_EVERY = 20000, /* microseconds, while no input is given: each one is sent at once */
    WORD_BYTES = 4,     /* (WORD is a type on Windows) */
    MOST_BYTES = 16     /* of an input */
};

uint64_t ggponet_hash_bytes(uint64_t hash, const void *bytes, size_t count) {
    for (size_t at = 0; at < count; at++)
        hash = (hash ^ ((const uint8_t *)bytes)[at]) * 0x100000001b3u;
    return hash;
}

static uint64_t hash_of(const char *name, const char *more) {
    return ggponet_hash_bytes(ggponet_hash_bytes(0xcbf29ce484222325u, name, strlen(name)), more, strlen(more));
}

/* The size of inputs is in it, since inputs of other sizes may have as many words. */
static uint64_t digest_of(const char *name, int players, int input_size) {
    char text[64];
    (void)snprintf(text, sizeof text, " ggponet 1 players %d input %d", players, input_size);
    return hash_of(name, text);
}

/* How many words an input has: its last bytes may be none of the game's. */
static int words_for(int input_size) { return (input_size + WORD_BYTES - 1) / WORD_BYTES; }

/* Why no session can be begun for such a game. */
static GGPOErrorCode can_begin(const GGPOSessionCallbacks *cb, const char *game, int players, int input_size) {
    if (cb == NULL || game == NULL || cb->save_game_state == NULL || cb->load_game_state == NULL || cb->free_buffer == NULL
        || cb->advance_frame == NULL || cb->on_event == NULL)
        return ggponet_refuse(NULL, GGPO_ERRORCODE_INVALID_REQUEST, "a callback or the game's name is missing");
    if (players < 1 || players > GGPO_MAX_PLAYERS)
        return ggponet_refuse(NULL, GGPO_ERRORCODE_PLAYER_OUT_OF_RANGE, "%d players; 1 to 4 were expected", players);
    if (input_size < 1)
        return ggponet_refuse(NULL, GGPO_ERRORCODE_INVALID_REQUEST, "an input of %d bytes", input_size);
    if (input_size > MOST_BYTES)
        return ggponet_refuse(NULL, GGPO_ERRORCODE_UNSUPPORTED, "an input of %d bytes; this library takes 16 at most", input_size);
    if (players * words_for(input_size) > FAZGROND_PLAYERS)
        return ggponet_refuse(NULL, GGPO_ERRORCODE_UNSUPPORTED,
                              "%d players with inputs of %d bytes; this library takes 32 bytes in all, each input rounded up to 4", players,
                              input_size);
    return GGPO_OK;
}

GGPOErrorCode ggponet_make_session(GGPOSession **session, const GGPOSessionCallbacks *cb, const char *game, int players, int input_size) {
    if (session == NULL)
        return ggponet_refuse(NULL, GGPO_ERRORCODE_INVALID_REQUEST, "no place for the session");
    *session = NULL;
    GGPOErrorCode code = can_begin(cb, game, players, input_size);
    if (code != GGPO_OK)
        return code;
    GGPOSession *made = calloc(1, sizeof *made);
    if (made == NULL)
        return ggponet_refuse(NULL, GGPO_ERRORCODE_GENERAL_FAILURE, "no memory");
    made->call = *cb;
    made->players = players;
    made->input_size = input_size;
    made->words = words_for(input_size);
    made->digest = digest_of(game, players, input_size);
    made->number = hash_of(game, " ggponet 1 match") | 1; /* who has other terms is heard, and told of */
    made->silent_after = FAZGROND_SILENT_AFTER;
    made->notify_after = FAZGROND_NOTIFY_AFTER;
    made->at = -1;
    made->noted = UINT32_MAX;
    made->start = ggponet_real_micros();
    made->speed = 1;
    if (cb->begin_game != NULL && !cb->begin_game(game)) {
        free(made);
        return ggponet_refuse(NULL, GGPO_ERRORCODE_GENERAL_FAILURE, "begin_game failed");
    }
    *session = made;
    return GGPO_OK;
}

/* A session with a socket. */
static GGPOErrorCode make_with_port(GGPOSession **session, const GGPOSessionCallbacks *cb, const char *game, int players, int input_size,
                                    unsigned short port) {
    GGPOErrorCode code = ggponet_make_session(session, cb, game, players, input_size);
    if (code != GGPO_OK)
        return code;
    (*session)->random = 0x9e3779b97f4a7c15u ^ port;
    (*session)->port = port;
    if (ggponet_open_port(*session, port))
        return GGPO_OK;
    free(*session);
    *session = NULL;
    return ggponet_refuse(NULL, GGPO_ERRORCODE_GENERAL_FAILURE, "port %d can't be opened", (int)port);
}

GGPOErrorCode ggpo_start_session(GGPOSession **session, GGPOSessionCallbacks *cb, const char *game, int num_players, int input_size,
                                 unsigned short localport) {
    return make_with_port(session, cb, game, num_players, input_size, localport);
}

GGPOErrorCode ggpo_start_spectating(GGPOSession **session, GGPOSessionCallbacks *cb, const char *game, int num_players, int input_size,
                                    unsigned short local_port, char *host_ip, unsigned short host_port) {
    struct sockaddr_in host;
    if (session != NULL)
        *session = NULL;
    if (host_ip == NULL || !ggponet_read_address(host_ip, host_port, &host))
        return ggponet_refuse(NULL, GGPO_ERRORCODE_INVALID_REQUEST, "the host has no IPv4 address");
    if (host_port == 0)
        return ggponet_refuse(NULL, GGPO_ERRORCODE_INVALID_REQUEST, "the host has no port");
    GGPOErrorCode code = make_with_port(session, cb, game, num_players, input_size, local_port);
    if (code != GGPO_OK)
        return code;
    (*session)->is_spectating = true;
    (*session)->machines = 1;
    (*session)->machine[HOST].address = host;
    (*session)->machine[HOST].handle = HOST_HANDLE;
    (*session)->machine[HOST].heard = 1;
    return GGPO_OK;
}

GGPOErrorCode ggpo_close_session(GGPOSession *session) {
    if (session == NULL)
        return GGPO_ERRORCODE_INVALID_SESSION;
    if (session->in_rollback)
        return ggponet_refuse(session, GGPO_ERRORCODE_IN_ROLLBACK, "ggpo_close_session within advance_frame");
    if (ggponet_has_helpers(session))
        return ggponet_refuse(session, GGPO_ERRORCODE_INVALID_REQUEST, "a helper is still at work");
    ggponet_close_lines(session);
    ggponet_close_match(session);
    ggponet_close_seats(session);
    ggponet_close_port(session);
    ggponet_free_jobs(session);
    ggponet_free_states(session);
    ggponet_free_line(session);
    free(session);
    return GGPO_OK;
}

/* Which machine's address this is, by its place; -1 if it is none's. */
static int place_at(const GGPOSession *session, const struct sockaddr_in *from) {
    for (int at = 0; at < session->machines; at++)
        if (at != session->place && ggponet_is_address(from, &session->machine[at].address))
            return at;
    return -1;
}

/* False: it isn't a packet of the match. What comes before that has begun is answered at once, so that it begins sooner. */
static bool take_of_match(GGPOSession *session, const uint8_t *bytes, size_t length) {
    if (fazgrond_peer_receive(&session->peer, &session->rollback, bytes, length, ggponet_millis(session)) != FAZGROND_OK)
        return false;
    if (!session->has_begun)
        session->send_due = 0;
    return true;
}

/* A datagram of a machine is the match's, or of who comes there. */
static void take_of_place(GGPOSession *session, int place, int sender, const uint8_t *bytes, size_t length) {
    bool is_of_match = sender < MACHINES && ggponet_place_of(session, (uint32_t)sender) == place;
    if (!is_of_match || !take_of_match(session, bytes, length))
        ggponet_hear_who_comes(session, place, bytes, length);
}

/* Gives a datagram to whom it is for, by the address that it came from; a machine's has to name that machine. */
static void take(GGPOSession *session, const struct sockaddr_in *from, const uint8_t *bytes, size_t length) {
    int sender = length > SENDER_AT ? bytes[SENDER_AT] : MACHINES, at;
    if (session->is_spectating) {
        if (ggponet_is_address(from, &session->machine[HOST].address))
            ggponet_hear_host(session, bytes, length);
    } else if (session->can_rejoin && (at = place_at(session, from)) >= 0)
        take_of_place(session, at, sender, bytes, length);
    else if (sender < session->machines && sender != session->me && ggponet_is_address(from, &session->machine[sender].address))
        take_of_match(session, bytes, length);
    else if ((at = ggponet_spectator_at(session, from)) >= 0)
        ggponet_hear_spectator(session, at, bytes, length);
}

/* Takes what came. */
static GGPOErrorCode hear(GGPOSession *session) {
    uint8_t bytes[1500];
    struct sockaddr_in from;
    long length = 0;
    for (int count = 0; count < MOST_AT_ONCE && length >= 0; count++) {
        length = ggponet_next_datagram(session, &from, bytes, sizeof bytes);
        if (length >= 0)
            take(session, &from, bytes, (size_t)length);
    }
    /* Once a player has left, frames past the end of an epoch may be known: none is played before the next one has begun. */
    bool is_in_frame = session->can_rejoin && (session->given != 0 || session->is_row_given);
    return session->is_spectating || is_in_frame ? GGPO_OK : ggponet_poll(session);
}

/* Sends to all others. */
static void send_all(GGPOSession *session) {
    session->send_due = ggponet_micros(session) + SEND_EVERY;
    if (session->is_spectating) {
        ggponet_send_to_host(session);
        return;
    }
    ggponet_host_turn(session);
    ggponet_ask_to_come(session);
    ggponet_send_to_machines(session);
    ggponet_send_to_spectators(session);
}

static void send_if_due(GGPOSession *session) {
    if (ggponet_micros(session) >= session->send_due)
        send_all(session);
}

/* How long nothing is to be done, but for what comes. */
static uint64_t time_to_wait(const GGPOSession *session, uint64_t until) {
    uint64_t now = ggponet_micros(session);
    if (session->is_open && session->send_due < until)
        until = session->send_due;
    if (session->first != NULL && session->first->due < until)
        until = session->first->due;
    return until > now ? until - now : 0;
}

static void tell_events(GGPOSession *session) {
    if (session->is_spectating) {
        ggponet_tell_of_host(session);
        return;
    }
    ggponet_tell_of_match(session);
    ggponet_tell_of_spectators(session);
}

static GGPOErrorCode idle_once(GGPOSession *session) {
    session->given = 0;
    GGPOErrorCode code = hear(session);
    if (code == GGPO_OK && !session->is_spectating)
        code = ggponet_come(session);
    if (code == GGPO_OK && !session->is_spectating)
        code = ggponet_go_on(session);
    if (code == GGPO_OK && !session->is_spectating)
        code = ggponet_roll_back(session);
    ggponet_note_settled(session);
    send_if_due(session);
    ggponet_send_due_of_line(session);
    tell_events(session);
    return code;
}

static GGPOErrorCode idle_of_sync_test(GGPOSession *session, uint64_t until) {
    ggponet_run_sync_test(session);
    for (uint64_t time; (time = time_to_wait(session, until)) > 0;)
        ggponet_wait_micros(session, time);
    return GGPO_OK;
}

GGPOErrorCode ggpo_idle(GGPOSession *session, int timeout) {
    GGPOErrorCode code = ggponet_can_call(session, "ggpo_idle");
    if (code != GGPO_OK)
        return code;
    uint64_t until = ggponet_micros(session) + (timeout > 0 ? (uint64_t)timeout * 1000 : 0);
    if (session->sync_frames != 0)
        return idle_of_sync_test(session, until);
    code = session->is_spectating ? ggponet_open_viewer(session) : ggponet_open_match(session);
    if (code != GGPO_OK)
        return code;
    for (;;) {
        if (session->is_open)
            code = idle_once(session);
        if (code != GGPO_OK || ggponet_micros(session) >= until)
            return code;
        ggponet_wait_micros(session, time_to_wait(session, until));
    }
}

/* The words of an input: of each the first byte is the lowest. Where the input ends within one, its other bytes are zeros. */
static void read_words(const void *values, int size, uint32_t *words) {
    memset(words, 0, MOST_BYTES);
    for (int at = 0; at < size; at++)
        words[at / WORD_BYTES] |= (uint32_t)((const uint8_t *)values)[at] << (8 * (at % WORD_BYTES));
}

int ggponet_all_words(const GGPOSession *session) { return session->players * session->words; }

int ggponet_word_player(const GGPOSession *session, GGPOPlayerHandle handle, int word) { return (handle - 1) * session->words + word + 1; }

GGPOPlayerHandle ggponet_handle_of_word(const GGPOSession *session, int player) { return (player - 1) / session->words + 1; }

int ggponet_flags_of(const GGPOSession *session, const fazgrond_row *row) {
    uint32_t all = (1u << session->words) - 1;
    int flags = 0;
    for (int at = 0; at < session->players; at++)
        if ((row->gone >> (at * session->words) & all) == all)
            flags |= 1 << at;
    return flags;
}

static void write_input(const GGPOSession *session, const uint32_t *words, uint8_t *out) {
    for (int at = 0; at < session->input_size; at++)
        out[at] = (uint8_t)(words[at / WORD_BYTES] >> (8 * (at % WORD_BYTES)));
}

void ggponet_write_row(const GGPOSession *session, const fazgrond_row *row, uint8_t *out) {
    for (int at = 0; at < session->players; at++)
        write_input(session, &row->words[at * session->words], out + at * session->input_size);
}

static void give_row(const GGPOSession *session, void *values, int size, int *disconnect_flags) {
    memset(values, 0, (size_t)size);
    ggponet_write_row(session, &session->row, values);
    if (disconnect_flags != NULL)
        *disconnect_flags = ggponet_flags_of(session, &session->row);
}

static GGPOErrorCode add_to_sync_test(GGPOSession *session, GGPOPlayerHandle handle, const uint32_t *words) {
    if (handle < 1 || handle > session->players)
        return ggponet_no_player(session, handle);
    if (!session->is_running)
        return ggponet_refuse(session, GGPO_ERRORCODE_NOT_SYNCHRONIZED, "ggpo_idle was not called yet");
    for (int word = 0; word < session->words; word++)
        session->row.words[ggponet_word_player(session, handle, word) - 1] = words[word];
    return GGPO_OK;
}

/* Whether all local players' inputs of this frame were taken. */
static bool has_all_inputs(const GGPOSession *session) {
    for (int at = 0; at < session->players; at++)
        if (session->player[at].type == GGPO_PLAYERTYPE_LOCAL && (session->given >> at & 1) == 0)
            return false;
    return true;
}

static GGPOErrorCode add_to_match(GGPOSession *session, GGPOPlayerHandle handle, const uint32_t *words) {
    const player *of = ggponet_player_of(session, handle);
    if (of == NULL || of->type != GGPO_PLAYERTYPE_LOCAL)
        return ggponet_no_player(session, handle);
    if ((session->given >> (handle - 1) & 1) != 0)
        return ggponet_refuse(session, GGPO_ERRORCODE_INVALID_REQUEST, "player %d gave an input for this frame already", handle);
    GGPOErrorCode code = ggponet_open_match(session);
    if (code != GGPO_OK)
        return code;
    if (!session->is_open)
        return ggponet_refuse(session, GGPO_ERRORCODE_NOT_SYNCHRONIZED, "not all players are added");
    code = hear(session);
    if (code == GGPO_OK)
        code = ggponet_come(session);
    if (code == GGPO_OK && session->given == 0)
        code = ggponet_go_on(session);
    if (code == GGPO_OK)
        code = ggponet_give_words(session, handle, words);
    if (code != GGPO_OK)
        return code;
    session->given |= 1u << (handle - 1);
    if (has_all_inputs(session))
        send_all(session);
    return GGPO_OK;
}

GGPOErrorCode ggpo_add_local_input(GGPOSession *session, GGPOPlayerHandle handle, void *values, int size) {
    GGPOErrorCode code = ggponet_can_call(session, "ggpo_add_local_input");
    if (code != GGPO_OK || session->is_spectating)
        return code;
    if (values == NULL)
        return ggponet_refuse(session, GGPO_ERRORCODE_INVALID_REQUEST, "no input");
    if (size != session->input_size)
        return ggponet_refuse(session, GGPO_ERRORCODE_INVALID_REQUEST, "an input of %d bytes; %d were expected", size, session->input_size);
    uint32_t words[MOST_BYTES / WORD_BYTES];
    read_words(values, size, words);
    return session->sync_frames != 0 ? add_to_sync_test(session, handle, words) : add_to_match(session, handle, words);
}

/* The row of the frame that the game plays next. */
static GGPOErrorCode find_row(GGPOSession *session) {
    return session->is_spectating   ? ggponet_next_row(session)
        : session->sync_frames != 0 ? ggponet_begin_sync_test(session)
                                    : ggponet_row_of_match(session);
}

GGPOErrorCode ggpo_synchronize_input(GGPOSession *session, void *values, int size, int *disconnect_flags) {
    if (session == NULL)
        return GGPO_ERRORCODE_INVALID_SESSION;
    if (session->is_broken)
        return GGPO_ERRORCODE_GENERAL_FAILURE;
    if (values == NULL || size < session->players * session->input_size)
        return ggponet_refuse(session, GGPO_ERRORCODE_INVALID_REQUEST, "room of %d bytes for %d inputs", size, session->players);
    GGPOErrorCode code = session->in_rollback ? GGPO_OK : find_row(session);
    if (code == GGPO_OK)
        give_row(session, values, size, disconnect_flags);
    return code;
}

GGPOErrorCode ggpo_advance_frame(GGPOSession *session) {
    if (session == NULL)
        return GGPO_ERRORCODE_INVALID_SESSION;
    if (session->is_broken)
        return GGPO_ERRORCODE_GENERAL_FAILURE;
    if (session->in_rollback) {
        session->is_advanced = true;
        return GGPO_OK;
    }
    if (!session->is_row_given)
        return ggponet_refuse(session, GGPO_ERRORCODE_INVALID_REQUEST, "ggpo_synchronize_input has to come before each frame");
    session->is_row_given = false;
    session->given = 0;
    if (session->sync_frames != 0)
        return ggponet_advance_sync_test(session);
    if (!session->is_spectating)
        return ggponet_advance_match(session);
    session->frame++;
    return GGPO_OK;
}

/* The row of a settled frame: of this epoch, or one that is remembered of those before it. */
static bool find_settled(GGPOSession *session, int frame, fazgrond_row *row) {
    if (frame >= session->base)
        return fazgrond_settled_row(&session->rollback, (uint32_t)(frame - session->base), row) == FAZGROND_OK;
    const settled_row *one = &session->rows_before[frame % ROWS_BEFORE];
    *row = one->row;
    return one->frame == frame && row->count > 0;
}

GGPOErrorCode fazggpo_get_settled_input(GGPOSession *session, int frame, void *values, int size, int *disconnect_flags) {
    fazgrond_row row;
    if (session == NULL)
        return GGPO_ERRORCODE_INVALID_SESSION;
    if (values == NULL || size < session->players * session->input_size)
        return ggponet_refuse(session, GGPO_ERRORCODE_INVALID_REQUEST, "room of %d bytes for %d inputs", size, session->players);
    if (session->is_spectating || session->sync_frames != 0 || frame < 0 || !find_settled(session, frame, &row))
        return ggponet_refuse(session, GGPO_ERRORCODE_INVALID_REQUEST, "frame %d isn't settled, or isn't remembered", frame);
    memset(values, 0, (size_t)size);
    ggponet_write_row(session, &row, values);
    if (disconnect_flags != NULL)
        *disconnect_flags = ggponet_flags_of(session, &row);
    return GGPO_OK;
}

GGPOErrorCode fazggpo_get_settled_from(GGPOSession *session, int *frame) {
    if (session == NULL)
        return GGPO_ERRORCODE_INVALID_SESSION;
    if (frame == NULL)
        return ggponet_refuse(session, GGPO_ERRORCODE_INVALID_REQUEST, "no place for the frame");
    if (session->is_spectating || session->sync_frames != 0 || !session->has_begun)
        return ggponet_refuse(session, GGPO_ERRORCODE_NOT_SYNCHRONIZED, "no frame is settled yet");
    fazgrond_row row;
    *frame = session->base - session->came_from > ROWS_BEFORE ? session->base - ROWS_BEFORE : session->came_from;
    while (*frame < session->base && !find_settled(session, *frame, &row))
        (*frame)++;
    return GGPO_OK;
}

GGPOErrorCode fazggpo_get_settled(GGPOSession *session, int *frame) {
    fazgrond_line_state state = { 0 };
    uint32_t settled = 0;
    if (session == NULL)
        return GGPO_ERRORCODE_INVALID_SESSION;
    if (frame == NULL)
        return ggponet_refuse(session, GGPO_ERRORCODE_INVALID_REQUEST, "no place for the frame");
    if (session->sync_frames != 0) {
        *frame = session->after[0].frame;
        return GGPO_OK;
    }
    if (!session->is_open || session->is_coming)
        return ggponet_refuse(session, GGPO_ERRORCODE_NOT_SYNCHRONIZED, "the match is not open");
    int32_t code = session->is_spectating ? fazgrond_viewer_look(&session->viewer, ggponet_millis(session), &state)
                                          : fazgrond_settled(&session->rollback, &settled);
    if (code != FAZGROND_OK)
        return ggponet_refused(session, code);
    *frame = session->base + (int)(session->is_spectating ? state.settled : settled);
    return GGPO_OK;
}
