//! What include/fazgrond.h declares. It is written by bindings/rust/declare.
#![allow(dead_code)]
use crate::epoch::Mark;
use crate::habits::Foreseen;
use crate::handle::Reached;
use crate::line::LineSettings;
use crate::peer::Match;
use crate::row::Row;
use crate::settings::Settings;
use crate::state::StateName;
use std::ffi::c_void;
use std::mem::size_of;

/// What is open: a session, a peer, a line, a viewer, a player's habits, or who gives or takes a state. To another kind's calls
/// it is closed.
#[repr(C)]
pub struct Object {
    pub full: u8,
    pub at: *mut c_void,
}

pub type Session = Object;
pub type Peer = Object;
pub type Line = Object;
pub type Viewer = Object;
pub type Habits = Object;
pub type Giver = Object;
pub type Taker = Object;

#[repr(C)]
#[derive(Default)]
pub struct Request {
    pub kind: u32,
    pub slot: u32,
    pub row: Row,
}

#[repr(C)]
#[derive(Default)]
pub struct Entry {
    pub kind: u32,
    pub player: u32,
    pub frame: u32,
    pub word: u32,
}

#[repr(C)]
#[derive(Default)]
pub struct MatchSettings {
    pub size: u32,
    pub me: u32,
    pub machines: u32,
    pub input_size: u32,
    pub numbers: [u64; MACHINES],
    pub draw: u64,
    pub digest: u64,
    pub opening: u64,
    pub comers: u64,
    pub epoch: u64,
    pub base: u64,
    pub owners: [u32; PLAYERS],
    pub delays: [u32; PLAYERS],
    pub masks: [u32; PLAYERS],
    pub profile: u32,
    pub threshold: u32,
    pub limit: u32,
    pub log: u32,
    pub silent_after: u32,
    pub notify_after: u32,
    pub stalled_after: u32,
    pub held_turns: u32,
    pub carries: u32,
    pub lasts: u32,
    pub frame_time: u32,
}

#[repr(C)]
#[derive(Default)]
pub struct Unfit {
    pub setting: u32,
    pub player: u32,
    pub value: u32,
}

#[repr(C)]
#[derive(Default)]
pub struct Turn {
    pub is_running: u32,
    pub has_played: u32,
    pub has_gone_on: u32,
    pub has_requests: u32,
    pub frame: u32,
    pub handed: u32,
    pub failed: i32,
    pub waits_for: i32,
    pub next_in: u32,
}

#[repr(C)]
#[derive(Default)]
pub struct Event {
    pub code: u32,
    pub machine: u32,
    pub player: u32,
    pub count: u32,
    pub total: u32,
    pub frames_ahead: u32,
    pub disconnect_in: u32,
    pub frame: u32,
    pub field: u32,
    pub bye: u32,
}

#[repr(C)]
#[derive(Default)]
pub struct Stats {
    pub is_measured: u32,
    pub round_trip: u32,
    pub sent: u32,
    pub received: u32,
    pub lost: u32,
    pub words_queued: u32,
    pub frames_behind: i32,
    pub their_frames_behind: i32,
    pub refused: u32,
    pub dropped: u32,
    pub restarted: u32,
}

#[repr(C)]
#[derive(Default)]
pub struct EpochNow {
    pub epoch: u64,
    pub base: u64,
    pub machines: u32,
    pub threshold: u32,
    pub owners: [u32; PLAYERS],
    pub delays: [u32; PLAYERS],
    pub stayed: [u32; MACHINES],
}

#[repr(C)]
#[derive(Default)]
pub struct Epoch {
    pub size: u32,
    pub words: u32,
    pub threshold: u32,
    pub machines: u32,
    pub id: u64,
    pub base: u64,
    pub owners: [u32; PLAYERS],
    pub delays: [u32; PLAYERS],
}

#[repr(C)]
#[derive(Default)]
pub struct LineState {
    pub rows: u32,
    pub settled: u32,
    pub silence: u32,
    pub is_playing: u32,
    pub has_ended: u32,
    pub is_silent: u32,
}

#[repr(C)]
#[derive(Default)]
pub struct Heard {
    pub what: u32,
    pub machine: u32,
}

#[repr(C)]
#[derive(Default)]
pub struct TakerState {
    pub pieces: usize,
    pub left: usize,
}

#[repr(C)]
#[derive(Default)]
pub struct Window {
    pub highest: u64,
    pub runs: [u64; WINDOW_PLACES],
    pub bits: [u64; WINDOW_PLACES],
}

pub const VERSION: u32 = 0x000300;
pub const PLAYERS: usize = 8;
pub const NO_PLAYER: u32 = 255;
pub const NOBODY: u32 = 254;
pub const AS_BEFORE: u32 = 0xffffffff;
pub const MACHINES: usize = 8;
pub const SILENT_AFTER: u32 = 5000;
pub const NOTIFY_AFTER: u32 = 750;
pub const DATAGRAM: usize = 1200;
pub const HELD_WORDS: usize = 64;
pub const GUESS_WORDS: usize = 24;
pub const PIECE: usize = 1024;
pub const ASKED: usize = 16;
pub const DIGEST_BYTES: usize = 32;
pub const NO_MACHINE: u8 = 255;
pub const WINDOW_REACH: usize = 1024;
pub const WINDOW_PLACES: usize = 17;

pub const GGPO: u32 = 0;
pub const WIDE: u32 = 1;

pub const LOAD: u32 = 1;
pub const SAVE: u32 = 2;
pub const STEP: u32 = 3;
pub const FREE: u32 = 4;
pub const JOB_LOAD: u32 = 5;
pub const JOB_SAVE: u32 = 6;
pub const JOB_STEP: u32 = 7;

pub const LOCAL: u32 = 1;
pub const REMOTE: u32 = 2;
pub const DISCONNECT: u32 = 3;
pub const SYNC: u32 = 4;
pub const ADVANCE: u32 = 5;
pub const GRAFT: u32 = 6;

pub const OK: i32 = 0;
pub const INVALID_PLAYER: i32 = 2;
pub const PLAYER_OUT_OF_RANGE: i32 = 3;
pub const PREDICTION_THRESHOLD: i32 = 4;
pub const PLAYER_DISCONNECTED: i32 = 9;
pub const INVALID_REQUEST: i32 = 11;
pub const LOCAL_INPUT_MISSING: i32 = 101;
pub const INPUT_TWICE: i32 = 102;
pub const GAP: i32 = 103;
pub const CONFLICT: i32 = 104;
pub const QUEUE_FULL: i32 = 105;
pub const FRAME_LIMIT: i32 = 106;
pub const NO_MEMORY: i32 = 107;
pub const STRANGER: i32 = 108;
pub const TOO_FAR: i32 = 109;
pub const LATE: i32 = 110;
pub const ORPHAN: i32 = 111;
pub const DEAD: i32 = 112;
pub const TREE_FULL: i32 = 113;
pub const LOG_FULL: i32 = 114;
pub const NO_PLAN: i32 = 117;
pub const FULL: i32 = 119;
pub const NO_JOB: i32 = 120;
pub const IS_CLOSED: i32 = 201;
pub const PENDING: i32 = 202;
pub const NOTHING: i32 = 203;
pub const TOO_SHORT: i32 = 204;
pub const OTHER_VERSION: i32 = 205;
pub const NOT_SEALED: i32 = 301;
pub const NO_DATAGRAM: i32 = 302;
pub const INVALID_MACHINE: i32 = 303;
pub const OWN_MACHINE: i32 = 304;
pub const MACHINE_GONE: i32 = 305;
pub const MISMATCHED: i32 = 306;
pub const OVERSTATED: i32 = 307;
pub const ENDED: i32 = 308;
pub const OTHER_SENDER: i32 = 309;
pub const NO_ROWS: i32 = 310;
pub const ROWS_MISSING: i32 = 311;
pub const OUTSIDE: i32 = 312;
pub const OTHER_SESSION: i32 = 313;
pub const OTHER_KIND: i32 = 314;
pub const OTHER_STATE: i32 = 315;
pub const BARRED: i32 = 316;
pub const NOT_NOW: i32 = 317;
pub const PAST_THE_END: i32 = 318;
pub const WRONG_LENGTH: i32 = 319;
pub const TOO_LONG: i32 = 320;
pub const NO_MARKS: i32 = 321;
pub const MARKED: i32 = 322;
pub const UNLIKE_DELAYS: i32 = 323;
pub const TWO_OWNERS: i32 = 324;
pub const TOO_MANY_WORDS: i32 = 325;
pub const NO_NUMBER: i32 = 326;
pub const GREAT_THRESHOLD: i32 = 327;
pub const LONG_DELAY: i32 = 328;
pub const OTHERS_DELAY: i32 = 329;
pub const WRONG_TICKET: i32 = 330;
pub const JOBS_OUT: i32 = 331;
pub const INPUTS_TOO_LONG: i32 = 332;
pub const OUT_OF_RANGE: i32 = 333;
pub const INPUT_LENGTH: i32 = 334;

pub const SETTING_ME: u32 = 1;
pub const SETTING_MACHINES: u32 = 2;
pub const SETTING_INPUT_SIZE: u32 = 3;
pub const SETTING_OWNER: u32 = 4;
pub const SETTING_DELAY: u32 = 5;
pub const SETTING_PROFILE: u32 = 6;
pub const SETTING_THRESHOLD: u32 = 7;
pub const SETTING_HELD_TURNS: u32 = 8;
pub const SETTING_FRAME_TIME: u32 = 9;

pub const SYNCHRONIZING: u32 = 1001;
pub const SYNCHRONIZED: u32 = 1002;
pub const RUNNING: u32 = 1003;
pub const DISCONNECTED: u32 = 1004;
pub const TIME_SYNC: u32 = 1005;
pub const INTERRUPTED: u32 = 1006;
pub const RESUMED: u32 = 1007;
pub const LEFT: u32 = 1101;
pub const DESYNC: u32 = 1102;
pub const MISMATCH: u32 = 1103;
pub const DROPPED: u32 = 1104;
pub const RESTARTED: u32 = 1105;
pub const STALLED: u32 = 1106;
pub const REFUSED: u32 = 1107;
pub const MISSING: u32 = 1108;
pub const CUT_OFF: u32 = 1109;
pub const STRANGERS: u32 = 1110;
pub const TWO_MARKS: u32 = 1111;

pub const BYE_LEAVES: u32 = 1;
pub const BYE_DESYNC: u32 = 2;
pub const BYE_ERROR: u32 = 3;
pub const BYE_OWN: u32 = 16;

pub const PIECE_AGAIN: u32 = 1;
pub const PIECE_TAKEN: u32 = 2;
pub const STATE_WHOLE: u32 = 3;
pub const STATE_WRONG: u32 = 4;

impl Settings {
    pub(crate) fn made(players: u32) -> Settings {
        Settings {
            size: size_of::<Self>() as u32,
            profile: if players <= 4 { GGPO } else { WIDE },
            players,
            local: 0,
            threshold: if players <= 4 { 8 } else { 15 },
            limit: 1048576,
            log: 16777216,
            delays: [0; PLAYERS],
            masks: [0xffffffff; PLAYERS],
        }
    }
}

impl MatchSettings {
    pub(crate) fn made(machines: u32, me: u32) -> MatchSettings {
        MatchSettings {
            size: size_of::<Self>() as u32,
            me,
            machines,
            input_size: 4,
            numbers: [0; MACHINES],
            draw: 0,
            digest: 0,
            opening: 0,
            comers: 0,
            epoch: 0,
            base: 0,
            owners: [NO_PLAYER; PLAYERS],
            delays: [0; PLAYERS],
            masks: [0xffffffff; PLAYERS],
            profile: GGPO,
            threshold: 8,
            limit: 1048576,
            log: 16777216,
            silent_after: SILENT_AFTER,
            notify_after: NOTIFY_AFTER,
            stalled_after: 0,
            held_turns: 0,
            carries: 0,
            lasts: 0,
            frame_time: 16667,
        }
    }
}

impl Mark {
    pub(crate) fn made() -> Mark {
        Mark {
            size: size_of::<Self>() as u32,
            threshold: 0,
            ticket: 0,
            comes: [0; PLAYERS],
            delays: [AS_BEFORE; PLAYERS],
        }
    }
}

impl Match {
    pub(crate) fn made(machines: u32, me: u32) -> Match {
        Match {
            size: size_of::<Self>() as u32,
            numbers: [0; MACHINES],
            draw: 0,
            digest: 0,
            opening: 0,
            comers: 0,
            me,
            machines,
            owners: [NO_PLAYER; PLAYERS],
            silent_after: SILENT_AFTER,
            notify_after: NOTIFY_AFTER,
            stalled_after: 0,
            words: 1,
            held_turns: 0,
        }
    }
}

impl Epoch {
    pub(crate) fn made(of: &Match, settings: &Settings) -> Epoch {
        Epoch {
            size: size_of::<Self>() as u32,
            words: of.words,
            threshold: settings.threshold,
            machines: of.machines,
            id: 0,
            base: 0,
            owners: of.owners,
            delays: settings.delays,
        }
    }
}

extern "C" {
    pub fn fazgrond_version() -> u32;
    pub fn fazgrond_text(code: i32, out: *mut u8, room: usize) -> usize;
    pub fn fazgrond_open(session: *mut Session, settings: *const Settings) -> i32;
    pub fn fazgrond_close(session: *mut Session);
    pub fn fazgrond_add_local_input(session: *mut Session, player: u8, word: u32) -> i32;
    pub fn fazgrond_remote_input(session: *mut Session, player: u8, frame: u32, word: u32, repeated: *mut u32) -> i32;
    pub fn fazgrond_disconnect_player(session: *mut Session, player: u8) -> i32;
    pub fn fazgrond_synchronize_input(session: *mut Session, row: *mut Row) -> i32;
    pub fn fazgrond_advance_frame(session: *mut Session, reached: *mut Reached) -> i32;
    pub fn fazgrond_has_news(session: *mut Session, flag: *mut u32) -> i32;
    pub fn fazgrond_take_requests(session: *mut Session, out: *mut Request, room: usize) -> usize;
    pub fn fazgrond_guess(
        session: *mut Session,
        player: u8,
        words: *const u32,
        count: usize,
        until: u32,
        job: *mut u32,
    ) -> i32;
    pub fn fazgrond_graft(session: *mut Session, job: u32, added: *mut u32) -> i32;
    pub fn fazgrond_forget(session: *mut Session, job: u32) -> i32;
    pub fn fazgrond_limit_slots(session: *mut Session, slots: u32) -> i32;
    pub fn fazgrond_reserve_log(session: *mut Session, events: u32) -> i32;
    pub fn fazgrond_frame(session: *mut Session, frame: *mut u32) -> i32;
    pub fn fazgrond_settled(session: *mut Session, rows: *mut u32) -> i32;
    pub fn fazgrond_settled_row(session: *mut Session, frame: u32, row: *mut Row) -> i32;
    pub fn fazgrond_settled_slot(session: *mut Session, frame: *mut u32, slot: *mut u32) -> i32;
    pub fn fazgrond_confirmed(session: *mut Session, player: u8, words: *mut u32) -> i32;
    pub fn fazgrond_confirmed_word(session: *mut Session, player: u8, frame: u32, word: *mut u32) -> i32;
    pub fn fazgrond_input_frame(session: *mut Session, player: u8, frame: *mut u32) -> i32;
    pub fn fazgrond_log_length(session: *mut Session, entries: *mut usize) -> i32;
    pub fn fazgrond_log_entry(session: *mut Session, place: usize, entry: *mut Entry) -> i32;
    pub fn fazgrond_note_advantages(session: *mut Session, local: i32, remote: i32) -> i32;
    pub fn fazgrond_frames_ahead(session: *mut Session, frames: *mut u32) -> i32;
    pub fn fazgrond_claim(session: *mut Session, out: *mut u8, room: usize, length: *mut usize) -> i32;
    pub fn fazgrond_ticket(comers: u64, name: u32) -> u64;
    pub fn fazgrond_match_open(session: *mut Session, settings: *const MatchSettings, why: *mut Unfit) -> i32;
    pub fn fazgrond_match_receive(session: *mut Session, bytes: *const u8, length: usize, now: u32) -> i32;
    pub fn fazgrond_match_turn(
        session: *mut Session,
        inputs: *const u8,
        length: usize,
        now: u32,
        turn: *mut Turn,
    ) -> i32;
    pub fn fazgrond_match_next(
        session: *mut Session,
        machine: *mut u8,
        out: *mut u8,
        room: usize,
        length: *mut usize,
    ) -> i32;
    pub fn fazgrond_match_event(session: *mut Session, event: *mut Event) -> i32;
    pub fn fazgrond_match_note(session: *mut Session, digest: u64) -> i32;
    pub fn fazgrond_match_leave(session: *mut Session, why: u8) -> i32;
    pub fn fazgrond_match_disconnect(session: *mut Session, machine: u8) -> i32;
    pub fn fazgrond_match_mark(session: *mut Session, player: u8, mark: *const Mark) -> i32;
    pub fn fazgrond_match_stats(session: *mut Session, machine: u8, stats: *mut Stats) -> i32;
    pub fn fazgrond_match_epoch(session: *mut Session, epoch: *mut EpochNow) -> i32;
    pub fn fazgrond_match_waiting(session: *mut Session, out: *mut Entry, room: usize) -> usize;
    pub fn fazgrond_match_rerun(session: *mut Session, count: u32, frames: *mut u32) -> i32;
    pub fn fazgrond_match_is_pressed(session: *mut Session, flag: *mut u32) -> i32;
    pub fn fazgrond_match_guess(session: *mut Session, until: u32, job: *mut u32) -> i32;
    pub fn fazgrond_match_hand_over(session: *mut Session, count: u32) -> i32;
    pub fn fazgrond_peer_open(peer: *mut Peer, session: *mut Session, of: *const Match) -> i32;
    pub fn fazgrond_peer_open_carrying(peer: *mut Peer, session: *mut Session, of: *const Match) -> i32;
    pub fn fazgrond_peer_receive(
        peer: *mut Peer,
        session: *mut Session,
        bytes: *const u8,
        length: usize,
        now: u32,
    ) -> i32;
    pub fn fazgrond_peer_poll(peer: *mut Peer, session: *mut Session, now: u32) -> i32;
    pub fn fazgrond_peer_is_running(peer: *mut Peer, flag: *mut u32) -> i32;
    pub fn fazgrond_peer_send(
        peer: *mut Peer,
        session: *mut Session,
        machine: u8,
        now: u32,
        out: *mut u8,
        room: usize,
        length: *mut usize,
    ) -> i32;
    pub fn fazgrond_peer_send_more(
        peer: *mut Peer,
        machine: *mut u8,
        out: *mut u8,
        room: usize,
        length: *mut usize,
    ) -> i32;
    pub fn fazgrond_peer_bye(
        peer: *mut Peer,
        machine: u8,
        why: u8,
        out: *mut u8,
        room: usize,
        length: *mut usize,
    ) -> i32;
    pub fn fazgrond_peer_disconnect(peer: *mut Peer, machine: u8) -> i32;
    pub fn fazgrond_peer_note_settled(peer: *mut Peer, session: *mut Session, digest: u64) -> i32;
    pub fn fazgrond_peer_event(peer: *mut Peer, event: *mut Event) -> i32;
    pub fn fazgrond_peer_stats(peer: *mut Peer, machine: u8, stats: *mut Stats) -> i32;
    pub fn fazgrond_peer_waiting(peer: *mut Peer, out: *mut Entry, room: usize) -> usize;
    pub fn fazgrond_peer_rerun(peer: *mut Peer, session: *mut Session, count: u32, frames: *mut u32) -> i32;
    pub fn fazgrond_peer_guess(peer: *mut Peer, session: *mut Session, until: u32, job: *mut u32) -> i32;
    pub fn fazgrond_peer_hand_over(peer: *mut Peer, session: *mut Session, count: u32) -> i32;
    pub fn fazgrond_peer_hand_over_due(peer: *mut Peer, session: *mut Session, handed: *mut u32) -> i32;
    pub fn fazgrond_peer_is_pressed(peer: *mut Peer, session: *mut Session, flag: *mut u32) -> i32;
    pub fn fazgrond_peer_open_lasting(
        peer: *mut Peer,
        session: *mut Session,
        of: *const Match,
        epoch: *const Epoch,
    ) -> i32;
    pub fn fazgrond_peer_epoch(peer: *mut Peer, epoch: *mut Epoch) -> i32;
    pub fn fazgrond_peer_has_stayed(peer: *mut Peer, machine: u8, flag: *mut u32) -> i32;
    pub fn fazgrond_peer_mark(peer: *mut Peer, session: *mut Session, player: u8, mark: *const Mark) -> i32;
    pub fn fazgrond_peer_go_on(peer: *mut Peer, session: *mut Session, frames: *mut u32) -> i32;
    pub fn fazgrond_peer_send_before(
        peer: *mut Peer,
        machine: u8,
        now: u32,
        out: *mut u8,
        room: usize,
        length: *mut usize,
    ) -> i32;
    pub fn fazgrond_line_open(line: *mut Line, settings: *const LineSettings) -> i32;
    pub fn fazgrond_line_receive(line: *mut Line, bytes: *const u8, length: usize, now: u32) -> i32;
    pub fn fazgrond_line_send(
        line: *mut Line,
        session: *mut Session,
        now: u32,
        out: *mut u8,
        room: usize,
        length: *mut usize,
    ) -> i32;
    pub fn fazgrond_line_send_before(
        line: *mut Line,
        peer: *mut Peer,
        now: u32,
        out: *mut u8,
        room: usize,
        length: *mut usize,
    ) -> i32;
    pub fn fazgrond_line_bye(line: *mut Line, out: *mut u8, room: usize, length: *mut usize) -> i32;
    pub fn fazgrond_line_look(line: *mut Line, now: u32, state: *mut LineState) -> i32;
    pub fn fazgrond_viewer_open(viewer: *mut Viewer, settings: *const LineSettings) -> i32;
    pub fn fazgrond_viewer_receive(
        viewer: *mut Viewer,
        bytes: *const u8,
        length: usize,
        now: u32,
        rows: *mut u32,
    ) -> i32;
    pub fn fazgrond_viewer_send(viewer: *mut Viewer, now: u32, out: *mut u8, room: usize, length: *mut usize) -> i32;
    pub fn fazgrond_viewer_bye(viewer: *mut Viewer, out: *mut u8, room: usize, length: *mut usize) -> i32;
    pub fn fazgrond_viewer_row(viewer: *mut Viewer, row: *mut Row) -> i32;
    pub fn fazgrond_viewer_look(viewer: *mut Viewer, now: u32, state: *mut LineState) -> i32;
    pub fn fazgrond_habits_open(
        habits: *mut Habits,
        parts: *const u32,
        part_count: usize,
        likely: *const u32,
        likely_count: usize,
    ) -> i32;
    pub fn fazgrond_habits_note(habits: *mut Habits, word: u32) -> i32;
    pub fn fazgrond_habits_guesses(habits: *mut Habits, frames: u32, out: *mut Foreseen, room: usize) -> usize;
    pub fn fazgrond_giver_open(giver: *mut Giver, which: u64, frame: u32, bytes: *const u8, length: usize) -> i32;
    pub fn fazgrond_giver_name(giver: *mut Giver, name: *mut StateName) -> i32;
    pub fn fazgrond_giver_bytes(giver: *mut Giver, out: *mut u8, room: usize) -> i32;
    pub fn fazgrond_giver_reply(
        giver: *mut Giver,
        number: u64,
        me: u8,
        bytes: *const u8,
        length: usize,
        place: usize,
        out: *mut u8,
        room: usize,
        size: *mut usize,
    ) -> i32;
    pub fn fazgrond_taker_open(taker: *mut Taker, name: *const StateName, limit: u32) -> i32;
    pub fn fazgrond_taker_name(taker: *mut Taker, name: *mut StateName) -> i32;
    pub fn fazgrond_taker_look(taker: *mut Taker, state: *mut TakerState) -> i32;
    pub fn fazgrond_taker_send(
        taker: *mut Taker,
        number: u64,
        me: u8,
        most: usize,
        out: *mut u8,
        room: usize,
        size: *mut usize,
    ) -> i32;
    pub fn fazgrond_taker_receive(
        taker: *mut Taker,
        number: u64,
        bytes: *const u8,
        length: usize,
        heard: *mut Heard,
    ) -> i32;
    pub fn fazgrond_taker_takes_of(taker: *mut Taker, machine: u8, flag: *mut u32) -> i32;
    pub fn fazgrond_taker_take_of(taker: *mut Taker, machine: u8) -> i32;
    pub fn fazgrond_taker_bytes(taker: *mut Taker, out: *mut u8, room: usize) -> i32;
    pub fn fazgrond_state_sender(bytes: *const u8, length: usize, machine: *mut u8) -> i32;
    pub fn fazgrond_state_digest(name: *const StateName, digest: u64) -> u64;
    pub fn fazgrond_state_ask(
        number: u64,
        me: u8,
        which: u64,
        frame: u32,
        out: *mut u8,
        room: usize,
        size: *mut usize,
    ) -> i32;
    pub fn fazgrond_state_told(number: u64, bytes: *const u8, length: usize, name: *mut StateName) -> i32;
    pub fn fazgrond_window_is_new(window: *const Window, number: u64) -> u32;
    pub fn fazgrond_window_note(window: *mut Window, number: u64) -> u32;
}
