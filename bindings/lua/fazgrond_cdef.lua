-- What include/fazgrond.h declares, for LuaJIT. It is written by bindings/lua/declare.
local ffi = require "ffi"

if not pcall(ffi.typeof, "fazgrond_session") then -- (this may be loaded more than once)
    ffi.cdef [[
static const int FAZGROND_VERSION = 0x000300;
uint32_t fazgrond_version(void);
size_t fazgrond_text(int32_t code, uint8_t *out, size_t room);
static const int FAZGROND_PLAYERS = 8;
typedef struct fazgrond_session {
    uint8_t full;
    void *at;
} fazgrond_session;
enum {
    FAZGROND_GGPO = 0,
    FAZGROND_WIDE = 1,
};
typedef struct fazgrond_settings {
    uint32_t size;
    uint32_t profile;
    uint32_t players;
    uint32_t local;
    uint32_t threshold;
    uint32_t limit;
    uint32_t log;
    uint32_t delays[8];
    uint32_t masks[8];
} fazgrond_settings;
typedef struct fazgrond_row {
    uint32_t count;
    uint32_t gone;
    uint32_t words[8];
} fazgrond_row;
enum {
    FAZGROND_LOAD = 1,
    FAZGROND_SAVE = 2,
    FAZGROND_STEP = 3,
    FAZGROND_FREE = 4,
    FAZGROND_JOB_LOAD = 5,
    FAZGROND_JOB_SAVE = 6,
    FAZGROND_JOB_STEP = 7,
};
typedef struct fazgrond_request {
    uint32_t kind;
    uint32_t slot;
    fazgrond_row row;
} fazgrond_request;
typedef struct fazgrond_reached {
    uint32_t frame;
    uint32_t from;
    uint32_t rerun;
} fazgrond_reached;
enum {
    FAZGROND_LOCAL = 1,
    FAZGROND_REMOTE = 2,
    FAZGROND_DISCONNECT = 3,
    FAZGROND_SYNC = 4,
    FAZGROND_ADVANCE = 5,
    FAZGROND_GRAFT = 6,
};
typedef struct fazgrond_entry {
    uint32_t kind;
    uint32_t player;
    uint32_t frame;
    uint32_t word;
} fazgrond_entry;
enum {
    FAZGROND_OK = 0,
    FAZGROND_INVALID_PLAYER = 2,
    FAZGROND_PLAYER_OUT_OF_RANGE = 3,
    FAZGROND_PREDICTION_THRESHOLD = 4,
    FAZGROND_PLAYER_DISCONNECTED = 9,
    FAZGROND_INVALID_REQUEST = 11,
    FAZGROND_LOCAL_INPUT_MISSING = 101,
    FAZGROND_INPUT_TWICE = 102,
    FAZGROND_GAP = 103,
    FAZGROND_CONFLICT = 104,
    FAZGROND_QUEUE_FULL = 105,
    FAZGROND_FRAME_LIMIT = 106,
    FAZGROND_NO_MEMORY = 107,
    FAZGROND_STRANGER = 108,
    FAZGROND_TOO_FAR = 109,
    FAZGROND_LATE = 110,
    FAZGROND_ORPHAN = 111,
    FAZGROND_DEAD = 112,
    FAZGROND_TREE_FULL = 113,
    FAZGROND_LOG_FULL = 114,
    FAZGROND_NO_PLAN = 117,
    FAZGROND_FULL = 119,
    FAZGROND_NO_JOB = 120,
    FAZGROND_IS_CLOSED = 201,
    FAZGROND_PENDING = 202,
    FAZGROND_NOTHING = 203,
    FAZGROND_TOO_SHORT = 204,
    FAZGROND_OTHER_VERSION = 205,
    FAZGROND_NOT_SEALED = 301,
    FAZGROND_NO_DATAGRAM = 302,
    FAZGROND_INVALID_MACHINE = 303,
    FAZGROND_OWN_MACHINE = 304,
    FAZGROND_MACHINE_GONE = 305,
    FAZGROND_MISMATCHED = 306,
    FAZGROND_OVERSTATED = 307,
    FAZGROND_ENDED = 308,
    FAZGROND_OTHER_SENDER = 309,
    FAZGROND_NO_ROWS = 310,
    FAZGROND_ROWS_MISSING = 311,
    FAZGROND_OUTSIDE = 312,
    FAZGROND_OTHER_SESSION = 313,
    FAZGROND_OTHER_KIND = 314,
    FAZGROND_OTHER_STATE = 315,
    FAZGROND_BARRED = 316,
    FAZGROND_NOT_NOW = 317,
    FAZGROND_PAST_THE_END = 318,
    FAZGROND_WRONG_LENGTH = 319,
    FAZGROND_TOO_LONG = 320,
    FAZGROND_NO_MARKS = 321,
    FAZGROND_MARKED = 322,
    FAZGROND_UNLIKE_DELAYS = 323,
    FAZGROND_TWO_OWNERS = 324,
    FAZGROND_TOO_MANY_WORDS = 325,
    FAZGROND_NO_NUMBER = 326,
    FAZGROND_GREAT_THRESHOLD = 327,
    FAZGROND_LONG_DELAY = 328,
    FAZGROND_OTHERS_DELAY = 329,
    FAZGROND_WRONG_TICKET = 330,
    FAZGROND_JOBS_OUT = 331,
    FAZGROND_INPUTS_TOO_LONG = 332,
    FAZGROND_OUT_OF_RANGE = 333,
    FAZGROND_INPUT_LENGTH = 334,
};
int32_t fazgrond_open(fazgrond_session *session, const fazgrond_settings *settings);
void fazgrond_close(fazgrond_session *session);
int32_t fazgrond_add_local_input(fazgrond_session *session, uint8_t player, uint32_t word);
int32_t fazgrond_remote_input(fazgrond_session *session, uint8_t player, uint32_t frame, uint32_t word, uint32_t *repeated);
int32_t fazgrond_disconnect_player(fazgrond_session *session, uint8_t player);
int32_t fazgrond_synchronize_input(fazgrond_session *session, fazgrond_row *row);
int32_t fazgrond_advance_frame(fazgrond_session *session, fazgrond_reached *reached);
int32_t fazgrond_has_news(fazgrond_session *session, uint32_t *flag);
size_t fazgrond_take_requests(fazgrond_session *session, fazgrond_request *out, size_t room);
int32_t fazgrond_guess(fazgrond_session *session, uint8_t player, const uint32_t *words, size_t count, uint32_t until, uint32_t
    *job);
int32_t fazgrond_graft(fazgrond_session *session, uint32_t job, uint32_t *added);
int32_t fazgrond_forget(fazgrond_session *session, uint32_t job);
int32_t fazgrond_limit_slots(fazgrond_session *session, uint32_t slots);
int32_t fazgrond_reserve_log(fazgrond_session *session, uint32_t events);
int32_t fazgrond_frame(fazgrond_session *session, uint32_t *frame);
int32_t fazgrond_settled(fazgrond_session *session, uint32_t *rows);
int32_t fazgrond_settled_row(fazgrond_session *session, uint32_t frame, fazgrond_row *row);
int32_t fazgrond_settled_slot(fazgrond_session *session, uint32_t *frame, uint32_t *slot);
int32_t fazgrond_confirmed(fazgrond_session *session, uint8_t player, uint32_t *words);
int32_t fazgrond_confirmed_word(fazgrond_session *session, uint8_t player, uint32_t frame, uint32_t *word);
int32_t fazgrond_input_frame(fazgrond_session *session, uint8_t player, uint32_t *frame);
int32_t fazgrond_log_length(fazgrond_session *session, size_t *entries);
int32_t fazgrond_log_entry(fazgrond_session *session, size_t place, fazgrond_entry *entry);
int32_t fazgrond_note_advantages(fazgrond_session *session, int32_t local, int32_t remote);
int32_t fazgrond_frames_ahead(fazgrond_session *session, uint32_t *frames);
int32_t fazgrond_claim(fazgrond_session *session, uint8_t *out, size_t room, size_t *length);
static const int FAZGROND_NO_PLAYER = 255;
static const int FAZGROND_NOBODY = 254;
static const unsigned int FAZGROND_AS_BEFORE = 0xffffffff;
static const int FAZGROND_MACHINES = 8;
static const int FAZGROND_SILENT_AFTER = 5000;
static const int FAZGROND_NOTIFY_AFTER = 750;
static const int FAZGROND_DATAGRAM = 1200;
static const int FAZGROND_HELD_WORDS = 64;
typedef struct fazgrond_match_settings {
    uint32_t size;
    uint32_t me;
    uint32_t machines;
    uint32_t input_size;
    uint64_t numbers[8];
    uint64_t draw;
    uint64_t digest;
    uint64_t opening;
    uint64_t comers;
    uint64_t epoch;
    uint64_t base;
    uint32_t owners[8];
    uint32_t delays[8];
    uint32_t masks[8];
    uint32_t profile;
    uint32_t threshold;
    uint32_t limit;
    uint32_t log;
    uint32_t silent_after;
    uint32_t notify_after;
    uint32_t stalled_after;
    uint32_t held_turns;
    uint32_t carries;
    uint32_t lasts;
    uint32_t frame_time;
} fazgrond_match_settings;
enum {
    FAZGROND_SETTING_ME = 1,
    FAZGROND_SETTING_MACHINES = 2,
    FAZGROND_SETTING_INPUT_SIZE = 3,
    FAZGROND_SETTING_OWNER = 4,
    FAZGROND_SETTING_DELAY = 5,
    FAZGROND_SETTING_PROFILE = 6,
    FAZGROND_SETTING_THRESHOLD = 7,
    FAZGROND_SETTING_HELD_TURNS = 8,
    FAZGROND_SETTING_FRAME_TIME = 9,
};
typedef struct fazgrond_unfit {
    uint32_t setting;
    uint32_t player;
    uint32_t value;
} fazgrond_unfit;
typedef struct fazgrond_turn {
    uint32_t is_running;
    uint32_t has_played;
    uint32_t has_gone_on;
    uint32_t has_requests;
    uint32_t frame;
    uint32_t handed;
    int32_t failed;
    int32_t waits_for;
    uint32_t next_in;
} fazgrond_turn;
enum {
    FAZGROND_SYNCHRONIZING = 1001,
    FAZGROND_SYNCHRONIZED = 1002,
    FAZGROND_RUNNING = 1003,
    FAZGROND_DISCONNECTED = 1004,
    FAZGROND_TIME_SYNC = 1005,
    FAZGROND_INTERRUPTED = 1006,
    FAZGROND_RESUMED = 1007,
    FAZGROND_LEFT = 1101,
    FAZGROND_DESYNC = 1102,
    FAZGROND_MISMATCH = 1103,
    FAZGROND_DROPPED = 1104,
    FAZGROND_RESTARTED = 1105,
    FAZGROND_STALLED = 1106,
    FAZGROND_REFUSED = 1107,
    FAZGROND_MISSING = 1108,
    FAZGROND_CUT_OFF = 1109,
    FAZGROND_STRANGERS = 1110,
    FAZGROND_TWO_MARKS = 1111,
};
typedef struct fazgrond_event {
    uint32_t code;
    uint32_t machine;
    uint32_t player;
    uint32_t count;
    uint32_t total;
    uint32_t frames_ahead;
    uint32_t disconnect_in;
    uint32_t frame;
    uint32_t field;
    uint32_t bye;
} fazgrond_event;
enum {
    FAZGROND_BYE_LEAVES = 1,
    FAZGROND_BYE_DESYNC = 2,
    FAZGROND_BYE_ERROR = 3,
    FAZGROND_BYE_OWN = 16,
};
typedef struct fazgrond_stats {
    uint32_t is_measured;
    uint32_t round_trip;
    uint32_t sent;
    uint32_t received;
    uint32_t lost;
    uint32_t words_queued;
    int32_t frames_behind;
    int32_t their_frames_behind;
    uint32_t refused;
    uint32_t dropped;
    uint32_t restarted;
} fazgrond_stats;
typedef struct fazgrond_epoch_now {
    uint64_t epoch;
    uint64_t base;
    uint32_t machines;
    uint32_t threshold;
    uint32_t owners[8];
    uint32_t delays[8];
    uint32_t stayed[8];
} fazgrond_epoch_now;
typedef struct fazgrond_mark {
    uint32_t size;
    uint32_t threshold;
    uint64_t ticket;
    uint32_t comes[8];
    uint32_t delays[8];
} fazgrond_mark;
uint64_t fazgrond_ticket(uint64_t comers, uint32_t name);
int32_t fazgrond_match_open(fazgrond_session *session, const fazgrond_match_settings *settings, fazgrond_unfit *why);
int32_t fazgrond_match_receive(fazgrond_session *session, const uint8_t *bytes, size_t length, uint32_t now);
int32_t fazgrond_match_turn(fazgrond_session *session, const uint8_t *inputs, size_t length, uint32_t now, fazgrond_turn *turn);
int32_t fazgrond_match_next(fazgrond_session *session, uint8_t *machine, uint8_t *out, size_t room, size_t *length);
int32_t fazgrond_match_event(fazgrond_session *session, fazgrond_event *event);
int32_t fazgrond_match_note(fazgrond_session *session, uint64_t digest);
int32_t fazgrond_match_leave(fazgrond_session *session, uint8_t why);
int32_t fazgrond_match_disconnect(fazgrond_session *session, uint8_t machine);
int32_t fazgrond_match_mark(fazgrond_session *session, uint8_t player, const fazgrond_mark *mark);
int32_t fazgrond_match_stats(fazgrond_session *session, uint8_t machine, fazgrond_stats *stats);
int32_t fazgrond_match_epoch(fazgrond_session *session, fazgrond_epoch_now *epoch);
size_t fazgrond_match_waiting(fazgrond_session *session, fazgrond_entry *out, size_t room);
int32_t fazgrond_match_rerun(fazgrond_session *session, uint32_t count, uint32_t *frames);
int32_t fazgrond_match_is_pressed(fazgrond_session *session, uint32_t *flag);
int32_t fazgrond_match_guess(fazgrond_session *session, uint32_t until, uint32_t *job);
int32_t fazgrond_match_hand_over(fazgrond_session *session, uint32_t count);
typedef struct fazgrond_peer {
    uint8_t full;
    void *at;
} fazgrond_peer;
typedef struct fazgrond_match {
    uint32_t size;
    uint64_t numbers[8];
    uint64_t draw;
    uint64_t digest;
    uint64_t opening;
    uint64_t comers;
    uint32_t me;
    uint32_t machines;
    uint32_t owners[8];
    uint32_t silent_after;
    uint32_t notify_after;
    uint32_t stalled_after;
    uint32_t words;
    uint32_t held_turns;
} fazgrond_match;
int32_t fazgrond_peer_open(fazgrond_peer *peer, fazgrond_session *session, const fazgrond_match *match);
int32_t fazgrond_peer_open_carrying(fazgrond_peer *peer, fazgrond_session *session, const fazgrond_match *match);
int32_t fazgrond_peer_receive(fazgrond_peer *peer, fazgrond_session *session, const uint8_t *bytes, size_t length, uint32_t now);
int32_t fazgrond_peer_poll(fazgrond_peer *peer, fazgrond_session *session, uint32_t now);
int32_t fazgrond_peer_is_running(fazgrond_peer *peer, uint32_t *flag);
int32_t fazgrond_peer_send(fazgrond_peer *peer, fazgrond_session *session, uint8_t machine, uint32_t now, uint8_t *out, size_t
    room, size_t *length);
int32_t fazgrond_peer_send_more(fazgrond_peer *peer, uint8_t *machine, uint8_t *out, size_t room, size_t *length);
int32_t fazgrond_peer_bye(fazgrond_peer *peer, uint8_t machine, uint8_t why, uint8_t *out, size_t room, size_t *length);
int32_t fazgrond_peer_disconnect(fazgrond_peer *peer, uint8_t machine);
int32_t fazgrond_peer_note_settled(fazgrond_peer *peer, fazgrond_session *session, uint64_t digest);
int32_t fazgrond_peer_event(fazgrond_peer *peer, fazgrond_event *event);
int32_t fazgrond_peer_stats(fazgrond_peer *peer, uint8_t machine, fazgrond_stats *stats);
size_t fazgrond_peer_waiting(fazgrond_peer *peer, fazgrond_entry *out, size_t room);
int32_t fazgrond_peer_rerun(fazgrond_peer *peer, fazgrond_session *session, uint32_t count, uint32_t *frames);
int32_t fazgrond_peer_guess(fazgrond_peer *peer, fazgrond_session *session, uint32_t until, uint32_t *job);
int32_t fazgrond_peer_hand_over(fazgrond_peer *peer, fazgrond_session *session, uint32_t count);
int32_t fazgrond_peer_hand_over_due(fazgrond_peer *peer, fazgrond_session *session, uint32_t *handed);
int32_t fazgrond_peer_is_pressed(fazgrond_peer *peer, fazgrond_session *session, uint32_t *flag);
typedef struct fazgrond_epoch {
    uint32_t size;
    uint32_t words;
    uint32_t threshold;
    uint32_t machines;
    uint64_t id;
    uint64_t base;
    uint32_t owners[8];
    uint32_t delays[8];
} fazgrond_epoch;
int32_t fazgrond_peer_open_lasting(fazgrond_peer *peer, fazgrond_session *session, const fazgrond_match *match, const
    fazgrond_epoch *epoch);
int32_t fazgrond_peer_epoch(fazgrond_peer *peer, fazgrond_epoch *epoch);
int32_t fazgrond_peer_has_stayed(fazgrond_peer *peer, uint8_t machine, uint32_t *flag);
int32_t fazgrond_peer_mark(fazgrond_peer *peer, fazgrond_session *session, uint8_t player, const fazgrond_mark *mark);
int32_t fazgrond_peer_go_on(fazgrond_peer *peer, fazgrond_session *session, uint32_t *frames);
int32_t fazgrond_peer_send_before(fazgrond_peer *peer, uint8_t machine, uint32_t now, uint8_t *out, size_t room, size_t *length);
typedef struct fazgrond_line {
    uint8_t full;
    void *at;
} fazgrond_line;
typedef struct fazgrond_viewer {
    uint8_t full;
    void *at;
} fazgrond_viewer;
typedef struct fazgrond_line_settings {
    uint64_t number;
    uint64_t draw;
    uint64_t digest;
    uint64_t opening;
    uint32_t host;
    uint32_t machines;
    uint32_t owners[8];
    uint32_t silent_after;
} fazgrond_line_settings;
typedef struct fazgrond_line_state {
    uint32_t rows;
    uint32_t settled;
    uint32_t silence;
    uint32_t is_playing;
    uint32_t has_ended;
    uint32_t is_silent;
} fazgrond_line_state;
int32_t fazgrond_line_open(fazgrond_line *line, const fazgrond_line_settings *settings);
int32_t fazgrond_line_receive(fazgrond_line *line, const uint8_t *bytes, size_t length, uint32_t now);
int32_t fazgrond_line_send(fazgrond_line *line, fazgrond_session *session, uint32_t now, uint8_t *out, size_t room, size_t
    *length);
int32_t fazgrond_line_send_before(fazgrond_line *line, fazgrond_peer *peer, uint32_t now, uint8_t *out, size_t room, size_t
    *length);
int32_t fazgrond_line_bye(fazgrond_line *line, uint8_t *out, size_t room, size_t *length);
int32_t fazgrond_line_look(fazgrond_line *line, uint32_t now, fazgrond_line_state *state);
int32_t fazgrond_viewer_open(fazgrond_viewer *viewer, const fazgrond_line_settings *settings);
int32_t fazgrond_viewer_receive(fazgrond_viewer *viewer, const uint8_t *bytes, size_t length, uint32_t now, uint32_t *rows);
int32_t fazgrond_viewer_send(fazgrond_viewer *viewer, uint32_t now, uint8_t *out, size_t room, size_t *length);
int32_t fazgrond_viewer_bye(fazgrond_viewer *viewer, uint8_t *out, size_t room, size_t *length);
int32_t fazgrond_viewer_row(fazgrond_viewer *viewer, fazgrond_row *row);
int32_t fazgrond_viewer_look(fazgrond_viewer *viewer, uint32_t now, fazgrond_line_state *state);
typedef struct fazgrond_habits {
    uint8_t full;
    void *at;
} fazgrond_habits;
static const int FAZGROND_GUESS_WORDS = 24;
typedef struct fazgrond_foreseen {
    uint32_t count;
    uint32_t worth;
    uint32_t words[24];
} fazgrond_foreseen;
int32_t fazgrond_habits_open(fazgrond_habits *habits, const uint32_t *parts, size_t part_count, const uint32_t *likely, size_t
    likely_count);
int32_t fazgrond_habits_note(fazgrond_habits *habits, uint32_t word);
size_t fazgrond_habits_guesses(fazgrond_habits *habits, uint32_t frames, fazgrond_foreseen *out, size_t room);
typedef struct fazgrond_giver {
    uint8_t full;
    void *at;
} fazgrond_giver;
typedef struct fazgrond_taker {
    uint8_t full;
    void *at;
} fazgrond_taker;
static const int FAZGROND_PIECE = 1024;
static const int FAZGROND_ASKED = 16;
static const int FAZGROND_DIGEST_BYTES = 32;
typedef struct fazgrond_state_name {
    uint64_t which;
    uint32_t frame;
    uint32_t length;
    uint8_t digest[32];
} fazgrond_state_name;
enum {
    FAZGROND_PIECE_AGAIN = 1,
    FAZGROND_PIECE_TAKEN = 2,
    FAZGROND_STATE_WHOLE = 3,
    FAZGROND_STATE_WRONG = 4,
};
static const int FAZGROND_NO_MACHINE = 255;
typedef struct fazgrond_heard {
    uint32_t what;
    uint32_t machine;
} fazgrond_heard;
typedef struct fazgrond_taker_state {
    size_t pieces;
    size_t left;
} fazgrond_taker_state;
int32_t fazgrond_giver_open(fazgrond_giver *giver, uint64_t which, uint32_t frame, const uint8_t *bytes, size_t length);
int32_t fazgrond_giver_name(fazgrond_giver *giver, fazgrond_state_name *name);
int32_t fazgrond_giver_bytes(fazgrond_giver *giver, uint8_t *out, size_t room);
int32_t fazgrond_giver_reply(fazgrond_giver *giver, uint64_t number, uint8_t me, const uint8_t *bytes, size_t length, size_t
    place, uint8_t *out, size_t room, size_t *size);
int32_t fazgrond_taker_open(fazgrond_taker *taker, const fazgrond_state_name *name, uint32_t limit);
int32_t fazgrond_taker_name(fazgrond_taker *taker, fazgrond_state_name *name);
int32_t fazgrond_taker_look(fazgrond_taker *taker, fazgrond_taker_state *state);
int32_t fazgrond_taker_send(fazgrond_taker *taker, uint64_t number, uint8_t me, size_t most, uint8_t *out, size_t room, size_t
    *size);
int32_t fazgrond_taker_receive(fazgrond_taker *taker, uint64_t number, const uint8_t *bytes, size_t length, fazgrond_heard
    *heard);
int32_t fazgrond_taker_takes_of(fazgrond_taker *taker, uint8_t machine, uint32_t *flag);
int32_t fazgrond_taker_take_of(fazgrond_taker *taker, uint8_t machine);
int32_t fazgrond_taker_bytes(fazgrond_taker *taker, uint8_t *out, size_t room);
int32_t fazgrond_state_sender(const uint8_t *bytes, size_t length, uint8_t *machine);
uint64_t fazgrond_state_digest(const fazgrond_state_name *name, uint64_t digest);
int32_t fazgrond_state_ask(uint64_t number, uint8_t me, uint64_t which, uint32_t frame, uint8_t *out, size_t room, size_t *size);
int32_t fazgrond_state_told(uint64_t number, const uint8_t *bytes, size_t length, fazgrond_state_name *name);
static const int FAZGROND_WINDOW_REACH = 1024;
static const int FAZGROND_WINDOW_PLACES = 17;
typedef struct fazgrond_window {
    uint64_t highest;
    uint64_t runs[17];
    uint64_t bits[17];
} fazgrond_window;
uint32_t fazgrond_window_is_new(const fazgrond_window *window, uint64_t number);
uint32_t fazgrond_window_note(fazgrond_window *window, uint64_t number);
]]
end

return {
    makers = {
        settings_for = function(players)
            local made = ffi.new "fazgrond_settings"
            made.size = ffi.sizeof(made)
            made.profile = players <= 4 and 0 or 1
            made.players = players
            made.threshold = players <= 4 and 8 or 15
            made.limit = 1048576
            made.log = 16777216
            for at = 0, 7 do
                made.masks[at] = 4294967295
            end
            return made
        end,
        match_settings_for = function(machines, me)
            local made = ffi.new "fazgrond_match_settings"
            made.size = ffi.sizeof(made)
            made.me = me
            made.machines = machines
            made.input_size = 4
            for at = 0, 7 do
                made.owners[at] = 255
            end
            for at = 0, 7 do
                made.masks[at] = 4294967295
            end
            made.threshold = 8
            made.limit = 1048576
            made.log = 16777216
            made.silent_after = 5000
            made.notify_after = 750
            made.frame_time = 16667
            return made
        end,
        mark_for = function()
            local made = ffi.new "fazgrond_mark"
            made.size = ffi.sizeof(made)
            for at = 0, 7 do
                made.delays[at] = 4294967295
            end
            return made
        end,
        match_for = function(machines, me)
            local made = ffi.new "fazgrond_match"
            made.size = ffi.sizeof(made)
            made.me = me
            made.machines = machines
            for at = 0, 7 do
                made.owners[at] = 255
            end
            made.silent_after = 5000
            made.notify_after = 750
            made.words = 1
            return made
        end,
        epoch_for = function(match, settings)
            local made = ffi.new "fazgrond_epoch"
            made.size = ffi.sizeof(made)
            made.words = match.words
            made.threshold = settings.threshold
            made.machines = match.machines
            for at = 0, 7 do
                made.owners[at] = match.owners[at]
            end
            for at = 0, 7 do
                made.delays[at] = settings.delays[at]
            end
            return made
        end,
    },
    numbers = {
        VERSION = 768,
        PLAYERS = 8,
        NO_PLAYER = 255,
        NOBODY = 254,
        AS_BEFORE = 4294967295,
        MACHINES = 8,
        SILENT_AFTER = 5000,
        NOTIFY_AFTER = 750,
        DATAGRAM = 1200,
        HELD_WORDS = 64,
        GUESS_WORDS = 24,
        PIECE = 1024,
        ASKED = 16,
        DIGEST_BYTES = 32,
        NO_MACHINE = 255,
        WINDOW_REACH = 1024,
        WINDOW_PLACES = 17,
        GGPO = 0,
        WIDE = 1,
        LOAD = 1,
        SAVE = 2,
        STEP = 3,
        FREE = 4,
        JOB_LOAD = 5,
        JOB_SAVE = 6,
        JOB_STEP = 7,
        LOCAL = 1,
        REMOTE = 2,
        DISCONNECT = 3,
        SYNC = 4,
        ADVANCE = 5,
        GRAFT = 6,
        OK = 0,
        INVALID_PLAYER = 2,
        PLAYER_OUT_OF_RANGE = 3,
        PREDICTION_THRESHOLD = 4,
        PLAYER_DISCONNECTED = 9,
        INVALID_REQUEST = 11,
        LOCAL_INPUT_MISSING = 101,
        INPUT_TWICE = 102,
        GAP = 103,
        CONFLICT = 104,
        QUEUE_FULL = 105,
        FRAME_LIMIT = 106,
        NO_MEMORY = 107,
        STRANGER = 108,
        TOO_FAR = 109,
        LATE = 110,
        ORPHAN = 111,
        DEAD = 112,
        TREE_FULL = 113,
        LOG_FULL = 114,
        NO_PLAN = 117,
        FULL = 119,
        NO_JOB = 120,
        IS_CLOSED = 201,
        PENDING = 202,
        NOTHING = 203,
        TOO_SHORT = 204,
        OTHER_VERSION = 205,
        NOT_SEALED = 301,
        NO_DATAGRAM = 302,
        INVALID_MACHINE = 303,
        OWN_MACHINE = 304,
        MACHINE_GONE = 305,
        MISMATCHED = 306,
        OVERSTATED = 307,
        ENDED = 308,
        OTHER_SENDER = 309,
        NO_ROWS = 310,
        ROWS_MISSING = 311,
        OUTSIDE = 312,
        OTHER_SESSION = 313,
        OTHER_KIND = 314,
        OTHER_STATE = 315,
        BARRED = 316,
        NOT_NOW = 317,
        PAST_THE_END = 318,
        WRONG_LENGTH = 319,
        TOO_LONG = 320,
        NO_MARKS = 321,
        MARKED = 322,
        UNLIKE_DELAYS = 323,
        TWO_OWNERS = 324,
        TOO_MANY_WORDS = 325,
        NO_NUMBER = 326,
        GREAT_THRESHOLD = 327,
        LONG_DELAY = 328,
        OTHERS_DELAY = 329,
        WRONG_TICKET = 330,
        JOBS_OUT = 331,
        INPUTS_TOO_LONG = 332,
        OUT_OF_RANGE = 333,
        INPUT_LENGTH = 334,
        SETTING_ME = 1,
        SETTING_MACHINES = 2,
        SETTING_INPUT_SIZE = 3,
        SETTING_OWNER = 4,
        SETTING_DELAY = 5,
        SETTING_PROFILE = 6,
        SETTING_THRESHOLD = 7,
        SETTING_HELD_TURNS = 8,
        SETTING_FRAME_TIME = 9,
        SYNCHRONIZING = 1001,
        SYNCHRONIZED = 1002,
        RUNNING = 1003,
        DISCONNECTED = 1004,
        TIME_SYNC = 1005,
        INTERRUPTED = 1006,
        RESUMED = 1007,
        LEFT = 1101,
        DESYNC = 1102,
        MISMATCH = 1103,
        DROPPED = 1104,
        RESTARTED = 1105,
        STALLED = 1106,
        REFUSED = 1107,
        MISSING = 1108,
        CUT_OFF = 1109,
        STRANGERS = 1110,
        TWO_MARKS = 1111,
        BYE_LEAVES = 1,
        BYE_DESYNC = 2,
        BYE_ERROR = 3,
        BYE_OWN = 16,
        PIECE_AGAIN = 1,
        PIECE_TAKEN = 2,
        STATE_WHOLE = 3,
        STATE_WRONG = 4,
    },
    answers = {
        [0] = "ok",
        [2] = "invalid_player",
        [3] = "player_out_of_range",
        [4] = "prediction_threshold",
        [9] = "player_disconnected",
        [11] = "invalid_request",
        [101] = "local_input_missing",
        [102] = "input_twice",
        [103] = "gap",
        [104] = "conflict",
        [105] = "queue_full",
        [106] = "frame_limit",
        [107] = "no_memory",
        [108] = "stranger",
        [109] = "too_far",
        [110] = "late",
        [111] = "orphan",
        [112] = "dead",
        [113] = "tree_full",
        [114] = "log_full",
        [117] = "no_plan",
        [119] = "full",
        [120] = "no_job",
        [201] = "is_closed",
        [202] = "pending",
        [203] = "nothing",
        [204] = "too_short",
        [205] = "other_version",
        [301] = "not_sealed",
        [302] = "no_datagram",
        [303] = "invalid_machine",
        [304] = "own_machine",
        [305] = "machine_gone",
        [306] = "mismatched",
        [307] = "overstated",
        [308] = "ended",
        [309] = "other_sender",
        [310] = "no_rows",
        [311] = "rows_missing",
        [312] = "outside",
        [313] = "other_session",
        [314] = "other_kind",
        [315] = "other_state",
        [316] = "barred",
        [317] = "not_now",
        [318] = "past_the_end",
        [319] = "wrong_length",
        [320] = "too_long",
        [321] = "no_marks",
        [322] = "marked",
        [323] = "unlike_delays",
        [324] = "two_owners",
        [325] = "too_many_words",
        [326] = "no_number",
        [327] = "great_threshold",
        [328] = "long_delay",
        [329] = "others_delay",
        [330] = "wrong_ticket",
        [331] = "jobs_out",
        [332] = "inputs_too_long",
        [333] = "out_of_range",
        [334] = "input_length",
    },
    events = {
        [1001] = "synchronizing",
        [1002] = "synchronized",
        [1003] = "running",
        [1004] = "disconnected",
        [1005] = "time_sync",
        [1006] = "interrupted",
        [1007] = "resumed",
        [1101] = "left",
        [1102] = "desync",
        [1103] = "mismatch",
        [1104] = "dropped",
        [1105] = "restarted",
        [1106] = "stalled",
        [1107] = "refused",
        [1108] = "missing",
        [1109] = "cut_off",
        [1110] = "strangers",
        [1111] = "two_marks",
    },
}
