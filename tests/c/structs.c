/* The sizes and places of the header's structs are those that the library was built with. */
#include <fazgrond.h>

#define HAS(type, size) _Static_assert(sizeof(type) == (size), #type)
#define AT(type, field, place) _Static_assert(offsetof(type, field) == (place), #type "." #field)

HAS(fazgrond_session, 16);
AT(fazgrond_session, full, 0);
AT(fazgrond_session, at, 8);

HAS(fazgrond_settings, 92);
AT(fazgrond_settings, size, 0);
AT(fazgrond_settings, profile, 4);
AT(fazgrond_settings, players, 8);
AT(fazgrond_settings, local, 12);
AT(fazgrond_settings, threshold, 16);
AT(fazgrond_settings, limit, 20);
AT(fazgrond_settings, log, 24);
AT(fazgrond_settings, delays, 28);
AT(fazgrond_settings, masks, 60);

HAS(fazgrond_row, 40);
AT(fazgrond_row, count, 0);
AT(fazgrond_row, gone, 4);
AT(fazgrond_row, words, 8);

HAS(fazgrond_request, 48);
AT(fazgrond_request, kind, 0);
AT(fazgrond_request, slot, 4);
AT(fazgrond_request, row, 8);

HAS(fazgrond_reached, 12);
AT(fazgrond_reached, frame, 0);
AT(fazgrond_reached, from, 4);
AT(fazgrond_reached, rerun, 8);

HAS(fazgrond_entry, 16);
AT(fazgrond_entry, kind, 0);
AT(fazgrond_entry, player, 4);
AT(fazgrond_entry, frame, 8);
AT(fazgrond_entry, word, 12);

HAS(fazgrond_match_settings, 272);
AT(fazgrond_match_settings, size, 0);
AT(fazgrond_match_settings, me, 4);
AT(fazgrond_match_settings, machines, 8);
AT(fazgrond_match_settings, input_size, 12);
AT(fazgrond_match_settings, numbers, 16);
AT(fazgrond_match_settings, draw, 80);
AT(fazgrond_match_settings, digest, 88);
AT(fazgrond_match_settings, opening, 96);
AT(fazgrond_match_settings, comers, 104);
AT(fazgrond_match_settings, epoch, 112);
AT(fazgrond_match_settings, base, 120);
AT(fazgrond_match_settings, owners, 128);
AT(fazgrond_match_settings, delays, 160);
AT(fazgrond_match_settings, masks, 192);
AT(fazgrond_match_settings, profile, 224);
AT(fazgrond_match_settings, threshold, 228);
AT(fazgrond_match_settings, limit, 232);
AT(fazgrond_match_settings, log, 236);
AT(fazgrond_match_settings, silent_after, 240);
AT(fazgrond_match_settings, notify_after, 244);
AT(fazgrond_match_settings, stalled_after, 248);
AT(fazgrond_match_settings, held_turns, 252);
AT(fazgrond_match_settings, carries, 256);
AT(fazgrond_match_settings, lasts, 260);
AT(fazgrond_match_settings, frame_time, 264);

HAS(fazgrond_unfit, 12);
AT(fazgrond_unfit, setting, 0);
AT(fazgrond_unfit, player, 4);
AT(fazgrond_unfit, value, 8);

HAS(fazgrond_turn, 36);
AT(fazgrond_turn, is_running, 0);
AT(fazgrond_turn, has_played, 4);
AT(fazgrond_turn, has_gone_on, 8);
AT(fazgrond_turn, has_requests, 12);
AT(fazgrond_turn, frame, 16);
AT(fazgrond_turn, handed, 20);
AT(fazgrond_turn, failed, 24);
AT(fazgrond_turn, waits_for, 28);
AT(fazgrond_turn, next_in, 32);

HAS(fazgrond_epoch_now, 120);
AT(fazgrond_epoch_now, epoch, 0);
AT(fazgrond_epoch_now, base, 8);
AT(fazgrond_epoch_now, machines, 16);
AT(fazgrond_epoch_now, threshold, 20);
AT(fazgrond_epoch_now, owners, 24);
AT(fazgrond_epoch_now, delays, 56);
AT(fazgrond_epoch_now, stayed, 88);

HAS(fazgrond_peer, 16);
AT(fazgrond_peer, full, 0);
AT(fazgrond_peer, at, 8);

HAS(fazgrond_match, 168);
AT(fazgrond_match, size, 0);
AT(fazgrond_match, numbers, 8);
AT(fazgrond_match, draw, 72);
AT(fazgrond_match, digest, 80);
AT(fazgrond_match, opening, 88);
AT(fazgrond_match, comers, 96);
AT(fazgrond_match, me, 104);
AT(fazgrond_match, machines, 108);
AT(fazgrond_match, owners, 112);
AT(fazgrond_match, silent_after, 144);
AT(fazgrond_match, notify_after, 148);
AT(fazgrond_match, stalled_after, 152);
AT(fazgrond_match, words, 156);
AT(fazgrond_match, held_turns, 160);

HAS(fazgrond_event, 40);
AT(fazgrond_event, code, 0);
AT(fazgrond_event, machine, 4);
AT(fazgrond_event, player, 8);
AT(fazgrond_event, count, 12);
AT(fazgrond_event, total, 16);
AT(fazgrond_event, frames_ahead, 20);
AT(fazgrond_event, disconnect_in, 24);
AT(fazgrond_event, frame, 28);
AT(fazgrond_event, field, 32);
AT(fazgrond_event, bye, 36);

HAS(fazgrond_stats, 44);
AT(fazgrond_stats, is_measured, 0);
AT(fazgrond_stats, round_trip, 4);
AT(fazgrond_stats, sent, 8);
AT(fazgrond_stats, received, 12);
AT(fazgrond_stats, lost, 16);
AT(fazgrond_stats, words_queued, 20);
AT(fazgrond_stats, frames_behind, 24);
AT(fazgrond_stats, their_frames_behind, 28);
AT(fazgrond_stats, refused, 32);
AT(fazgrond_stats, dropped, 36);
AT(fazgrond_stats, restarted, 40);

HAS(fazgrond_epoch, 96);
AT(fazgrond_epoch, size, 0);
AT(fazgrond_epoch, words, 4);
AT(fazgrond_epoch, threshold, 8);
AT(fazgrond_epoch, machines, 12);
AT(fazgrond_epoch, id, 16);
AT(fazgrond_epoch, base, 24);
AT(fazgrond_epoch, owners, 32);
AT(fazgrond_epoch, delays, 64);

HAS(fazgrond_mark, 80);
AT(fazgrond_mark, size, 0);
AT(fazgrond_mark, threshold, 4);
AT(fazgrond_mark, ticket, 8);
AT(fazgrond_mark, comes, 16);
AT(fazgrond_mark, delays, 48);

HAS(fazgrond_line, 16);
AT(fazgrond_line, full, 0);
AT(fazgrond_line, at, 8);

HAS(fazgrond_viewer, 16);
AT(fazgrond_viewer, full, 0);
AT(fazgrond_viewer, at, 8);

HAS(fazgrond_line_settings, 80);
AT(fazgrond_line_settings, number, 0);
AT(fazgrond_line_settings, draw, 8);
AT(fazgrond_line_settings, digest, 16);
AT(fazgrond_line_settings, opening, 24);
AT(fazgrond_line_settings, host, 32);
AT(fazgrond_line_settings, machines, 36);
AT(fazgrond_line_settings, owners, 40);
AT(fazgrond_line_settings, silent_after, 72);

HAS(fazgrond_line_state, 24);
AT(fazgrond_line_state, rows, 0);
AT(fazgrond_line_state, settled, 4);
AT(fazgrond_line_state, silence, 8);
AT(fazgrond_line_state, is_playing, 12);
AT(fazgrond_line_state, has_ended, 16);
AT(fazgrond_line_state, is_silent, 20);

HAS(fazgrond_habits, 16);
AT(fazgrond_habits, full, 0);
AT(fazgrond_habits, at, 8);

HAS(fazgrond_foreseen, 104);
AT(fazgrond_foreseen, count, 0);
AT(fazgrond_foreseen, worth, 4);
AT(fazgrond_foreseen, words, 8);

HAS(fazgrond_giver, 16);
AT(fazgrond_giver, full, 0);
AT(fazgrond_giver, at, 8);

HAS(fazgrond_taker, 16);
AT(fazgrond_taker, full, 0);
AT(fazgrond_taker, at, 8);

HAS(fazgrond_state_name, 48);
AT(fazgrond_state_name, which, 0);
AT(fazgrond_state_name, frame, 8);
AT(fazgrond_state_name, length, 12);
AT(fazgrond_state_name, digest, 16);

HAS(fazgrond_heard, 8);
AT(fazgrond_heard, what, 0);
AT(fazgrond_heard, machine, 4);

HAS(fazgrond_taker_state, 16);
AT(fazgrond_taker_state, pieces, 0);
AT(fazgrond_taker_state, left, 8);

HAS(fazgrond_window, 280);
AT(fazgrond_window, highest, 0);
AT(fazgrond_window, runs, 8);
AT(fazgrond_window, bits, 144);
