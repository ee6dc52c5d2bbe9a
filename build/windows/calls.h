/* The functions of fazgrond.h: what each answers, its name, its parameters, and their names. */
/* clang-format off */
CALL(uint32_t, fazgrond_version, (void), ())
CALL(size_t, fazgrond_text, (int32_t code, uint8_t *out, size_t room), (code, out, room))
CALL(int32_t, fazgrond_open, (fazgrond_session *session, const fazgrond_settings *settings), (session, settings))
CALL(void, fazgrond_close, (fazgrond_session *session), (session))
CALL(int32_t, fazgrond_add_local_input, (fazgrond_session *session, uint8_t player, uint32_t word), (session, player, word))
CALL(int32_t, fazgrond_remote_input,
     (fazgrond_session *session, uint8_t player, uint32_t frame, uint32_t word, uint32_t *repeated),
     (session, player, frame, word, repeated))
CALL(int32_t, fazgrond_disconnect_player, (fazgrond_session *session, uint8_t player), (session, player))
CALL(int32_t, fazgrond_synchronize_input, (fazgrond_session *session, fazgrond_row *row), (session, row))
CALL(int32_t, fazgrond_advance_frame, (fazgrond_session *session, fazgrond_reached *reached), (session, reached))
CALL(int32_t, fazgrond_has_news, (fazgrond_session *session, uint32_t *flag), (session, flag))
CALL(size_t, fazgrond_take_requests, (fazgrond_session *session, fazgrond_request *out, size_t room), (session, out, room))
CALL(int32_t, fazgrond_guess,
     (fazgrond_session *session, uint8_t player, const uint32_t *words, size_t count, uint32_t until, uint32_t *job),
     (session, player, words, count, until, job))
CALL(int32_t, fazgrond_graft, (fazgrond_session *session, uint32_t job, uint32_t *added), (session, job, added))
CALL(int32_t, fazgrond_forget, (fazgrond_session *session, uint32_t job), (session, job))
CALL(int32_t, fazgrond_limit_slots, (fazgrond_session *session, uint32_t slots), (session, slots))
CALL(int32_t, fazgrond_reserve_log, (fazgrond_session *session, uint32_t events), (session, events))
CALL(int32_t, fazgrond_frame, (fazgrond_session *session, uint32_t *frame), (session, frame))
CALL(int32_t, fazgrond_settled, (fazgrond_session *session, uint32_t *rows), (session, rows))
CALL(int32_t, fazgrond_settled_row, (fazgrond_session *session, uint32_t frame, fazgrond_row *row), (session, frame, row))
CALL(int32_t, fazgrond_settled_slot, (fazgrond_session *session, uint32_t *frame, uint32_t *slot), (session, frame, slot))
CALL(int32_t, fazgrond_confirmed, (fazgrond_session *session, uint8_t player, uint32_t *words), (session, player, words))
CALL(int32_t, fazgrond_confirmed_word, (fazgrond_session *session, uint8_t player, uint32_t frame, uint32_t *word),
     (session, player, frame, word))
CALL(int32_t, fazgrond_input_frame, (fazgrond_session *session, uint8_t player, uint32_t *frame), (session, player, frame))
CALL(int32_t, fazgrond_log_length, (fazgrond_session *session, size_t *entries), (session, entries))
CALL(int32_t, fazgrond_log_entry, (fazgrond_session *session, size_t place, fazgrond_entry *entry), (session, place, entry))
CALL(int32_t, fazgrond_note_advantages, (fazgrond_session *session, int32_t local, int32_t remote), (session, local, remote))
CALL(int32_t, fazgrond_frames_ahead, (fazgrond_session *session, uint32_t *frames), (session, frames))
CALL(int32_t, fazgrond_claim, (fazgrond_session *session, uint8_t *out, size_t room, size_t *length),
     (session, out, room, length))
CALL(int32_t, fazgrond_match_open, (fazgrond_session *session, const fazgrond_match_settings *settings, fazgrond_unfit *why),
     (session, settings, why))
CALL(int32_t, fazgrond_match_receive, (fazgrond_session *session, const uint8_t *bytes, size_t length, uint32_t now),
     (session, bytes, length, now))
CALL(int32_t, fazgrond_match_turn,
     (fazgrond_session *session, const uint8_t *inputs, size_t length, uint32_t now, fazgrond_turn *turn),
     (session, inputs, length, now, turn))
CALL(int32_t, fazgrond_match_next, (fazgrond_session *session, uint8_t *machine, uint8_t *out, size_t room, size_t *length),
     (session, machine, out, room, length))
CALL(int32_t, fazgrond_match_event, (fazgrond_session *session, fazgrond_event *event), (session, event))
CALL(int32_t, fazgrond_match_note, (fazgrond_session *session, uint64_t digest), (session, digest))
CALL(int32_t, fazgrond_match_leave, (fazgrond_session *session, uint8_t why), (session, why))
CALL(int32_t, fazgrond_match_disconnect, (fazgrond_session *session, uint8_t machine), (session, machine))
CALL(int32_t, fazgrond_match_mark, (fazgrond_session *session, uint8_t player, const fazgrond_mark *mark),
     (session, player, mark))
CALL(int32_t, fazgrond_match_stats, (fazgrond_session *session, uint8_t machine, fazgrond_stats *stats),
     (session, machine, stats))
CALL(int32_t, fazgrond_match_epoch, (fazgrond_session *session, fazgrond_epoch_now *epoch), (session, epoch))
CALL(size_t, fazgrond_match_waiting, (fazgrond_session *session, fazgrond_entry *out, size_t room), (session, out, room))
CALL(int32_t, fazgrond_match_rerun, (fazgrond_session *session, uint32_t count, uint32_t *frames), (session, count, frames))
CALL(int32_t, fazgrond_match_is_pressed, (fazgrond_session *session, uint32_t *flag), (session, flag))
CALL(int32_t, fazgrond_match_guess, (fazgrond_session *session, uint32_t until, uint32_t *job), (session, until, job))
CALL(int32_t, fazgrond_match_hand_over, (fazgrond_session *session, uint32_t count), (session, count))
CALL(int32_t, fazgrond_peer_open, (fazgrond_peer *peer, fazgrond_session *session, const fazgrond_match *match),
     (peer, session, match))
CALL(int32_t, fazgrond_peer_open_carrying, (fazgrond_peer *peer, fazgrond_session *session, const fazgrond_match *match),
     (peer, session, match))
CALL(int32_t, fazgrond_peer_receive,
     (fazgrond_peer *peer, fazgrond_session *session, const uint8_t *bytes, size_t length, uint32_t now),
     (peer, session, bytes, length, now))
CALL(int32_t, fazgrond_peer_poll, (fazgrond_peer *peer, fazgrond_session *session, uint32_t now), (peer, session, now))
CALL(int32_t, fazgrond_peer_is_running, (fazgrond_peer *peer, uint32_t *flag), (peer, flag))
CALL(int32_t, fazgrond_peer_send,
     (fazgrond_peer *peer, fazgrond_session *session, uint8_t machine, uint32_t now, uint8_t *out, size_t room, size_t *length),
     (peer, session, machine, now, out, room, length))
CALL(int32_t, fazgrond_peer_send_more,
     (fazgrond_peer *peer, uint8_t *machine, uint8_t *out, size_t room, size_t *length),
     (peer, machine, out, room, length))
CALL(int32_t, fazgrond_peer_bye, (fazgrond_peer *peer, uint8_t machine, uint8_t why, uint8_t *out, size_t room, size_t *length),
     (peer, machine, why, out, room, length))
CALL(int32_t, fazgrond_peer_disconnect, (fazgrond_peer *peer, uint8_t machine), (peer, machine))
CALL(int32_t, fazgrond_peer_note_settled, (fazgrond_peer *peer, fazgrond_session *session, uint64_t digest),
     (peer, session, digest))
CALL(int32_t, fazgrond_peer_event, (fazgrond_peer *peer, fazgrond_event *event), (peer, event))
CALL(int32_t, fazgrond_peer_stats, (fazgrond_peer *peer, uint8_t machine, fazgrond_stats *stats), (peer, machine, stats))
CALL(size_t, fazgrond_peer_waiting, (fazgrond_peer *peer, fazgrond_entry *out, size_t room), (peer, out, room))
CALL(int32_t, fazgrond_peer_rerun, (fazgrond_peer *peer, fazgrond_session *session, uint32_t count, uint32_t *frames),
     (peer, session, count, frames))
CALL(int32_t, fazgrond_peer_guess, (fazgrond_peer *peer, fazgrond_session *session, uint32_t until, uint32_t *job),
     (peer, session, until, job))
CALL(int32_t, fazgrond_peer_hand_over, (fazgrond_peer *peer, fazgrond_session *session, uint32_t count), (peer, session, count))
CALL(int32_t, fazgrond_peer_hand_over_due, (fazgrond_peer *peer, fazgrond_session *session, uint32_t *handed),
     (peer, session, handed))
CALL(int32_t, fazgrond_peer_is_pressed, (fazgrond_peer *peer, fazgrond_session *session, uint32_t *flag),
     (peer, session, flag))
CALL(uint64_t, fazgrond_ticket, (uint64_t comers, uint32_t name), (comers, name))
CALL(int32_t, fazgrond_peer_open_lasting,
     (fazgrond_peer *peer, fazgrond_session *session, const fazgrond_match *match, const fazgrond_epoch *epoch),
     (peer, session, match, epoch))
CALL(int32_t, fazgrond_peer_epoch, (fazgrond_peer *peer, fazgrond_epoch *epoch), (peer, epoch))
CALL(int32_t, fazgrond_peer_has_stayed, (fazgrond_peer *peer, uint8_t machine, uint32_t *flag), (peer, machine, flag))
CALL(int32_t, fazgrond_peer_mark,
     (fazgrond_peer *peer, fazgrond_session *session, uint8_t player, const fazgrond_mark *mark),
     (peer, session, player, mark))
CALL(int32_t, fazgrond_peer_go_on, (fazgrond_peer *peer, fazgrond_session *session, uint32_t *frames), (peer, session, frames))
CALL(int32_t, fazgrond_peer_send_before,
     (fazgrond_peer *peer, uint8_t machine, uint32_t now, uint8_t *out, size_t room, size_t *length),
     (peer, machine, now, out, room, length))
CALL(int32_t, fazgrond_line_open, (fazgrond_line *line, const fazgrond_line_settings *settings), (line, settings))
CALL(int32_t, fazgrond_line_receive, (fazgrond_line *line, const uint8_t *bytes, size_t length, uint32_t now),
     (line, bytes, length, now))
CALL(int32_t, fazgrond_line_send,
     (fazgrond_line *line, fazgrond_session *session, uint32_t now, uint8_t *out, size_t room, size_t *length),
     (line, session, now, out, room, length))
CALL(int32_t, fazgrond_line_send_before,
     (fazgrond_line *line, fazgrond_peer *peer, uint32_t now, uint8_t *out, size_t room, size_t *length),
     (line, peer, now, out, room, length))
CALL(int32_t, fazgrond_line_bye, (fazgrond_line *line, uint8_t *out, size_t room, size_t *length), (line, out, room, length))
CALL(int32_t, fazgrond_line_look, (fazgrond_line *line, uint32_t now, fazgrond_line_state *state), (line, now, state))
CALL(int32_t, fazgrond_viewer_open, (fazgrond_viewer *viewer, const fazgrond_line_settings *settings), (viewer, settings))
CALL(int32_t, fazgrond_viewer_receive,
     (fazgrond_viewer *viewer, const uint8_t *bytes, size_t length, uint32_t now, uint32_t *rows),
     (viewer, bytes, length, now, rows))
CALL(int32_t, fazgrond_viewer_send, (fazgrond_viewer *viewer, uint32_t now, uint8_t *out, size_t room, size_t *length),
     (viewer, now, out, room, length))
CALL(int32_t, fazgrond_viewer_bye, (fazgrond_viewer *viewer, uint8_t *out, size_t room, size_t *length),
     (viewer, out, room, length))
CALL(int32_t, fazgrond_viewer_row, (fazgrond_viewer *viewer, fazgrond_row *row), (viewer, row))
CALL(int32_t, fazgrond_viewer_look, (fazgrond_viewer *viewer, uint32_t now, fazgrond_line_state *state), (viewer, now, state))
CALL(int32_t, fazgrond_habits_open,
     (fazgrond_habits *habits, const uint32_t *parts, size_t part_count, const uint32_t *likely, size_t likely_count),
     (habits, parts, part_count, likely, likely_count))
CALL(int32_t, fazgrond_habits_note, (fazgrond_habits *habits, uint32_t word), (habits, word))
CALL(size_t, fazgrond_habits_guesses, (fazgrond_habits *habits, uint32_t frames, fazgrond_foreseen *out, size_t room),
     (habits, frames, out, room))
CALL(int32_t, fazgrond_giver_open, (fazgrond_giver *giver, uint64_t which, uint32_t frame, const uint8_t *bytes, size_t length),
     (giver, which, frame, bytes, length))
CALL(int32_t, fazgrond_giver_name, (fazgrond_giver *giver, fazgrond_state_name *name), (giver, name))
CALL(int32_t, fazgrond_giver_bytes, (fazgrond_giver *giver, uint8_t *out, size_t room), (giver, out, room))
CALL(int32_t, fazgrond_giver_reply,
     (fazgrond_giver *giver, uint64_t number, uint8_t me, const uint8_t *bytes, size_t length, size_t place, uint8_t *out,
      size_t room, size_t *size),
     (giver, number, me, bytes, length, place, out, room, size))
CALL(int32_t, fazgrond_taker_open, (fazgrond_taker *taker, const fazgrond_state_name *name, uint32_t limit), (taker, name, limit))
CALL(int32_t, fazgrond_taker_name, (fazgrond_taker *taker, fazgrond_state_name *name), (taker, name))
CALL(int32_t, fazgrond_taker_look, (fazgrond_taker *taker, fazgrond_taker_state *state), (taker, state))
CALL(int32_t, fazgrond_taker_send,
     (fazgrond_taker *taker, uint64_t number, uint8_t me, size_t most, uint8_t *out, size_t room, size_t *size),
     (taker, number, me, most, out, room, size))
CALL(int32_t, fazgrond_taker_receive,
     (fazgrond_taker *taker, uint64_t number, const uint8_t *bytes, size_t length, fazgrond_heard *heard),
     (taker, number, bytes, length, heard))
CALL(int32_t, fazgrond_taker_takes_of, (fazgrond_taker *taker, uint8_t machine, uint32_t *flag), (taker, machine, flag))
CALL(int32_t, fazgrond_taker_take_of, (fazgrond_taker *taker, uint8_t machine), (taker, machine))
CALL(int32_t, fazgrond_taker_bytes, (fazgrond_taker *taker, uint8_t *out, size_t room), (taker, out, room))
CALL(int32_t, fazgrond_state_sender, (const uint8_t *bytes, size_t length, uint8_t *machine), (bytes, length, machine))
CALL(uint64_t, fazgrond_state_digest, (const fazgrond_state_name *name, uint64_t digest), (name, digest))
CALL(int32_t, fazgrond_state_ask,
     (uint64_t number, uint8_t me, uint64_t which, uint32_t frame, uint8_t *out, size_t room, size_t *size),
     (number, me, which, frame, out, room, size))
CALL(int32_t, fazgrond_state_told, (uint64_t number, const uint8_t *bytes, size_t length, fazgrond_state_name *name),
     (number, bytes, length, name))
CALL(uint32_t, fazgrond_window_is_new, (const fazgrond_window *window, uint64_t number), (window, number))
CALL(uint32_t, fazgrond_window_note, (fazgrond_window *window, uint64_t number), (window, number))
