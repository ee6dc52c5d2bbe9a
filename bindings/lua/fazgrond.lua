-- fazgrond.lua: rollback sessions for games in LuaJIT and LÖVE, over the shared library of C. docs/LUA.md shows a whole game.
--
-- What may be refused while all is well is answered by nil, the name of the refusal and its number: nil, "prediction_threshold",
-- 4. A call that no right program makes (of what is closed, with an option that there isn't or a number that fits nowhere) is an
-- error that names it. Players are numbered from 1, frames, machines and slots from 0, as in include/fazgrond.h, whose comments say what
-- each call does. A word is a whole number from 0 to 2^32 - 1; if it is below 0, it is taken for one of the bit library's.
local ffi = require "ffi"
local bit = require "bit"
local declared = require(((...) or ""):gsub("fazgrond$", "") .. "fazgrond_cdef")
local numbers, answers, makers = declared.numbers, declared.answers, declared.makers

local OK, TOO_SHORT = numbers.OK, numbers.TOO_SHORT
local LOCAL_INPUT_MISSING, INPUT_TWICE = numbers.LOCAL_INPUT_MISSING, numbers.INPUT_TWICE
local LOAD, SAVE, STEP, FREE = numbers.LOAD, numbers.SAVE, numbers.STEP, numbers.FREE
local JOB_LOAD, JOB_STEP = numbers.JOB_LOAD, numbers.JOB_STEP
local NO_JOB, JOBS_OUT = numbers.NO_JOB, numbers.JOBS_OUT
local PLAYERS, MACHINES, DATAGRAM = numbers.PLAYERS, numbers.MACHINES, numbers.DATAGRAM
local ROOM = 16 -- requests that are taken at once
local MOST_GUESSES = 32
local ENTRIES = {}
for _, name in ipairs { "LOCAL", "REMOTE", "DISCONNECT", "SYNC", "ADVANCE", "GRAFT" } do
    ENTRIES[numbers[name]] = name:lower()
end
local HEARD = {}
for _, name in ipairs { "PIECE_AGAIN", "PIECE_TAKEN", "STATE_WHOLE", "STATE_WRONG" } do
    HEARD[numbers[name]] = name:lower()
end

local fazgrond = { numbers = numbers, answers = answers, events = declared.events }
local lib, lib_path

-- What calls write. Whatever is read of it is read at once.
local number = ffi.new "uint32_t[2]"
local size = ffi.new "size_t[1]"
local machine_out = ffi.new "uint8_t[1]"
local bytes_out = ffi.new("uint8_t[?]", DATAGRAM)
local row_out = ffi.new "fazgrond_row"
local reached_out = ffi.new "fazgrond_reached"
local entry_out = ffi.new("fazgrond_entry[?]", numbers.HELD_WORDS)
local event_out = ffi.new "fazgrond_event"
local stats_out = ffi.new "fazgrond_stats"
local line_out = ffi.new "fazgrond_line_state"
local name_out = ffi.new "fazgrond_state_name"
local taker_out = ffi.new "fazgrond_taker_state"
local heard_out = ffi.new "fazgrond_heard"
local foreseen_out = ffi.new("fazgrond_foreseen[?]", MOST_GUESSES)
local epoch_out = ffi.new "fazgrond_epoch"

-- ---- The library.

local function version_text(version)
    return ("%d.%d.%d"):format(bit.rshift(version, 16), bit.band(bit.rshift(version, 8), 255), bit.band(version, 255))
end

-- Loads the library: from this file, else from the one that the variable FAZGROND_LIBRARY of the environment names, else from
-- where the system has libraries. Without this call that happens once something is opened.
function fazgrond.load(path)
    if lib then
        if path and path ~= lib_path then
            error("the library is loaded already, from " .. lib_path, 2)
        end
        return fazgrond
    end
    path = path or os.getenv "FAZGROND_LIBRARY" or "fazgrond"
    local found = ffi.load(path)
    local version = found.fazgrond_version()
    if bit.rshift(version, 8) ~= bit.rshift(numbers.VERSION, 8) then
        error(("%s has version %s, and %s was expected"):format(path, version_text(version), version_text(numbers.VERSION)), 2)
    end
    lib, lib_path = found, path
    return fazgrond
end

local function need_library()
    if not lib then
        fazgrond.load()
    end
end

-- "0.1.0": the version of the library.
function fazgrond.version()
    need_library()
    return version_text(lib.fazgrond_version())
end

-- 64 random bits, which aren't 0.
function fazgrond.random_number()
    local file = io.open("/dev/urandom", "rb") or error("there is no /dev/urandom: say the `draw` yourself", 2)
    local drawn = ffi.new "uint64_t[1]"
    repeat
        ffi.copy(drawn, file:read(8), 8)
    until drawn[0] ~= 0
    file:close()
    return drawn[0]
end

-- ---- Arguments and answers.

local function refused(code)
    return nil, answers[code], code
end

local function done(code)
    if code == OK then
        return true
    end
    return nil, answers[code], code
end

-- A number that a call wrote, if it was accepted.
local function answered(code)
    if code == OK then
        return number[0]
    end
    return nil, answers[code], code
end

local function flagged(code)
    if code == OK then
        return number[0] ~= 0
    end
    return nil, answers[code], code
end

-- The datagram that a call wrote.
local function written(code)
    if code == OK then
        return ffi.string(bytes_out, size[0])
    end
    return nil, answers[code], code
end

local function is_whole(value, least, most)
    return type(value) == "number" and value % 1 == 0 and value >= least and value <= most
end

local function fails(name, value, what)
    error(("`%s` is %s: %s"):format(name, tostring(value), what), 4)
end

-- A whole number, by the name that it is given by.
local function u32(name, value, most, least)
    local found = type(value) == "cdata" and tonumber(value) or value
    if is_whole(found, least or 0, most or 4294967295) then
        return found
    end
    fails(name, value, ("a whole number from %d to %.0f is needed"):format(least or 0, most or 4294967295))
end

-- One of 64 bits: LuaJIT's own, or one that a number of Lua has exactly.
local function u64(name, value)
    local is_own = ffi.istype("uint64_t", value) or ffi.istype("int64_t", value) and value >= 0
    if is_own or is_whole(value, 0, 2 ^ 53) then
        return value
    end
    fails(name, value, "a whole number from 0 to 2^53 is needed, or one of LuaJIT's 64 bits (7ULL)")
end

-- A digest, which may be one of the bit library's.
local function digest_of(name, value)
    return is_whole(value, -2147483648, -1) and value or u64(name, value)
end

-- A word, as a number without a sign.
local function word_of(name, value)
    local found = u32(name, value, 4294967295, -2147483648)
    return found >= 0 and found or found + 4294967296
end

-- One of a list. (Its name is made only if it is needed.)
local function word_at(name, at, value)
    return is_whole(value, 0, 4294967295) and value or word_of(("%s[%d]"):format(name, at), value)
end

-- A number of a player or machine.
local function u8(value)
    if is_whole(value, 0, 255) then
        return value
    end
    error(("%s is no number of a player or machine"):format(tostring(value)), 3)
end

-- Milliseconds of a clock that goes on for longer than 32 bits can say.
local function milliseconds(now)
    local found = type(now) == "cdata" and tonumber(now) or now
    if type(found) == "number" and found - found == 0 then -- (no infinity either)
        return found % 4294967296
    end
    fails("now", now, "the milliseconds of a clock are needed")
end

-- Bytes, and how many they are.
local function octets(name, bytes)
    if type(bytes) == "string" then
        return bytes, #bytes
    end
    fails(name, bytes, "a string is needed")
end

local function words_of(name, words)
    local found = {}
    for at = 1, #words do
        found[at] = word_at(name, at, words[at])
    end
    return found
end

-- Words as C has them, and how many.
local function array_of(name, words)
    return ffi.new("uint32_t[?]", math.max(#words, 1), words_of(name, words)), #words
end

-- Where a player stands in a list of C.
local function place_of(player)
    if is_whole(player, 1, PLAYERS) then
        return player - 1
    end
    error(("there is no player %s"):format(tostring(player)), 4)
end

-- Members of a struct, those that are given of these names.
local function put(to, given, names, take)
    for name in names:gmatch "%S+" do
        if given[name] ~= nil then
            to[name] = (take or u32)(name, given[name])
        end
    end
end

-- Numbers by players.
local function put_by_players(to, name, given, take)
    for player, value in pairs(given or {}) do
        to[place_of(player)] = (take or u32)(("%s[%d]"):format(name, player), value)
    end
end

-- What an answer or the code of an event means, in a sentence; nil if there is no such number.
function fazgrond.text(code)
    need_library()
    local length = tonumber(lib.fazgrond_text(u32("code", code, 2147483647), bytes_out, DATAGRAM))
    return length > 0 and ffi.string(bytes_out, length) or nil
end

-- A row's words, player 1's first, and the bits of those who have left.
local function row_of(row)
    local words = {}
    for player = 1, row.count do
        words[player] = row.words[player - 1]
    end
    return words, row.gone
end

local function row_answered(code)
    if code == OK then
        return row_of(row_out)
    end
    return refused(code)
end

local function entry_of(entry)
    return { kind = ENTRIES[entry.kind], player = entry.player, frame = entry.frame, word = entry.word }
end

-- These members of a struct.
local function members_of(struct, names)
    local found = {}
    for _, name in ipairs(names) do
        found[name] = struct[name]
    end
    return found
end

-- An error if an option isn't one that there is.
local function check_options(given, known, what)
    if type(given) ~= "table" then
        error(("%s: a table was expected"):format(what), 3)
    end
    for name in pairs(given) do
        if not known.has[name] then
            error(("%s have no `%s`, but %s"):format(what, tostring(name), known.names), 3)
        end
    end
end

-- An error if one is missing that is needed.
local function check_needed(given, what, ...)
    for _, name in ipairs { ... } do
        if given[name] == nil then
            error(("%s need `%s`"):format(what, name), 4)
        end
    end
end

local function set_of(names)
    local set = {}
    for name in names:gmatch "%S+" do
        set[name] = true
    end
    return { has = set, names = (names:gsub("%s+", ", ")) }
end

-- ---- What is open: a table with a handle, which closes by itself once nobody has it any more.

local function close_handle(handle)
    lib.fazgrond_close(ffi.cast("fazgrond_session *", handle))
end

local function class_of(kind)
    local class = { kind = kind }
    class.__index = class

    -- Closes it. Nothing happens if it is closed.
    function class:close()
        local handle = self.handle
        if handle then
            self.handle = nil
            close_handle(ffi.gc(handle, nil))
        end
    end

    return class
end

local function new_handle(kind)
    need_library()
    return ffi.new("fazgrond_" .. kind)
end

local function opened(class, handle, code)
    if code ~= OK then
        return refused(code)
    end
    return setmetatable({ handle = ffi.gc(handle, close_handle) }, class)
end

-- Its handle. Who uses what is closed is told so.
local function open(object)
    local handle = object.handle
    if not handle then
        error(("the %s is closed"):format(object.kind), 3)
    end
    return handle
end

local Session, Peer, Line, Viewer = class_of "session", class_of "peer", class_of "line", class_of "viewer"
local Habits, Giver, Taker = class_of "habits", class_of "giver", class_of "taker"
local Job = {}
Job.__index = Job

-- ---- A session, which plays a game.

local SETTINGS = set_of "players locals threshold limit log delays masks profile"
local PROFILES = { ggpo = numbers.GGPO, wide = numbers.WIDE }

-- Settings as fazgrond_settings_for has them, with what the game says.
local function settings_of(given)
    check_needed(given, "settings", "players", "locals")
    local settings = makers.settings_for(u32("players", given.players))
    put(settings, given, "threshold limit log")
    if given.profile ~= nil then
        settings.profile = PROFILES[given.profile] or error("a profile is `ggpo` or `wide`", 3)
    end
    for _, player in ipairs(given.locals) do
        settings["local"] = bit.bor(settings["local"], bit.lshift(1, place_of(player)))
    end
    put_by_players(settings.delays, "delays", given.delays)
    put_by_players(settings.masks, "masks", given.masks, word_of)
    return settings
end

-- Opens a session of a game, which is at its opening now: a table with the functions `save`, `load` and `advance`. The settings
-- are `players`, `locals` (a list of the players of this machine), and those of fazgrond_settings if they are to be others:
-- `delays` and `masks` by players, `threshold`, `limit`, `log`, `profile`.
function fazgrond.session(settings, game)
    check_options(settings, SETTINGS, "settings")
    for _, name in ipairs { "save", "load", "advance" } do
        if not game[name] then
            error(("the game has no function `%s`"):format(name), 2)
        end
    end
    local told = settings_of(settings)
    local handle = new_handle "session"
    local session, name, code = opened(Session, handle, lib.fazgrond_open(handle, told))
    if not session then
        return nil, name, code
    end
    session.game = game
    session.locals = { unpack(settings.locals or {}) }
    session.players = settings.players
    session.states = { [0] = game:save(0) }
    session.words = {}
    session.requests = ffi.new("fazgrond_request[?]", ROOM)
    session.epochs = 0 -- how many epochs were over
    session.jobs = {} -- those that are out
    session.is_whole = true
    return session
end

-- Its handle, if the game's states are those that the session takes them for.
local function whole(session)
    if not session.handle then
        error("the session is closed", 3)
    end
    if not session.is_whole then
        error("a function of the game has failed, so its states aren't those of the session", 3)
    end
    return session.handle
end

local function free_state(session, slot)
    local game, state = session.game, session.states[slot]
    session.states[slot] = nil
    if game.free and state ~= nil then -- (of a job that was never run there is none)
        game:free(state, slot)
    end
end

local function step(session, row)
    local words = session.words
    for player = 1, session.players do
        words[player] = row.words[player - 1]
    end
    session.game:advance(words, row.gone)
end

local function carry_out_one(session, request)
    local kind, slot = request.kind, request.slot
    if kind == STEP then
        step(session, request.row)
    elseif kind == SAVE then
        session.states[slot] = session.game:save(slot)
    elseif kind == LOAD then
        session.game:load(session.states[slot], slot)
    elseif kind == FREE then
        free_state(session, slot)
    end
end

-- Carries out what a call asked for.
local function carry_out(session)
    local handle, requests = session.handle, session.requests
    session.is_whole = false -- unless no function of the game fails
    local count = tonumber(lib.fazgrond_take_requests(handle, requests, ROOM))
    while count > 0 do
        for at = 0, count - 1 do
            carry_out_one(session, requests[at])
        end
        count = tonumber(lib.fazgrond_take_requests(handle, requests, ROOM))
    end
    session.is_whole = true
end

-- A local player's word of this frame.
function Session:add_local_input(player, word)
    return done(lib.fazgrond_add_local_input(open(self), u8(player), word_of("word", word)))
end

-- A remote player's next word, for a game with a network of its own: true, and whether it was taken before.
function Session:remote_input(player, frame, word)
    local code = lib.fazgrond_remote_input(open(self), u8(player), u32("frame", frame), word_of("word", word), number)
    if code == OK then
        return true, number[0] ~= 0
    end
    return refused(code)
end

-- A remote player leaves, for a game with a network of its own.
function Session:disconnect_player(player)
    return done(lib.fazgrond_disconnect_player(open(self), u8(player)))
end

-- The row of this frame, after a rollback if a prediction was wrong: its words, and the bits of those who have left.
function Session:synchronize_input()
    local code = lib.fazgrond_synchronize_input(whole(self), row_out)
    local words, gone, number_of = row_answered(code)
    carry_out(self)
    return words, gone, number_of
end

-- Goes on to the next frame, after a rollback if a prediction was wrong: the new frame, the one that it started from, and how
-- many frames were run.
function Session:advance_frame()
    local code = lib.fazgrond_advance_frame(whole(self), reached_out)
    local frame, from, rerun = reached_out.frame, reached_out.from, reached_out.rerun
    carry_out(self)
    if code == OK then
        return frame, from, rerun
    end
    return refused(code)
end

-- Gives the words of the local players, a list or the one word of all. One that was given already, since another's was refused after
-- it, counts as it was.
local function give(session, handle, words)
    local code, given = OK, {}
    for at in ipairs(session.locals) do
        given[at] = type(words) == "table" and word_at("words", at, words[at]) or word_of("words", words)
    end
    for at, player in ipairs(session.locals) do
        code = code == OK and lib.fazgrond_add_local_input(handle, player, given[at]) or code
        code = code == INPUT_TWICE and OK or code
    end
    return code
end

-- A turn: the words of the local players in their order, or one word if there is one player, and a frame, as `advance_frame`. If
-- that is refused, or there is no word since the game is to wait, what came too late is played again.
function Session:turn(words)
    local handle = whole(self)
    local code = words and give(self, handle, words) or LOCAL_INPUT_MISSING
    if code == OK then
        return self:advance_frame()
    end
    if self:has_news() then
        self:synchronize_input()
    end
    return refused(code)
end

-- Whether the state that is shown may be out of date.
function Session:has_news()
    return flagged(lib.fazgrond_has_news(open(self), number))
end

-- The job whose requests a guess has left.
local function job_of(session, code)
    if code ~= OK then
        return refused(code)
    end
    local job = setmetatable({ number = number[0], epoch = session.epochs, steps = {}, slots = {} }, Job)
    local requests = session.requests
    local count = tonumber(lib.fazgrond_take_requests(session.handle, requests, ROOM))
    while count > 0 do
        for at = 0, count - 1 do
            local kind, slot = requests[at].kind, requests[at].slot
            if kind == JOB_LOAD then
                job.from, job.from_slot = session.states[slot], slot
            elseif kind == JOB_STEP then
                local words, gone = row_of(requests[at].row)
                table.insert(job.steps, { words = words, gone = gone })
            else
                table.insert(job.slots, slot)
            end
        end
        count = tonumber(lib.fazgrond_take_requests(session.handle, requests, ROOM))
    end
    session.jobs[job] = true
    return job
end

-- A guess: if this player gave these words next, up to the frame `last`. Answers its job, which can be run anywhere; or nil and
-- "nothing" if all is kept already.
function Session:guess(player, words, last)
    local handle = whole(self)
    local array, count = array_of("words", words)
    return job_of(self, lib.fazgrond_guess(handle, u8(player), array, count, u32("last", last), number))
end

-- Runs a job by a game that isn't the session's: its state is another one afterwards. (What has no game, another thread say, is
-- given `from` and `steps`, and what it saved after each step becomes `states`.)
function Job:run(game)
    local states = {}
    game:load(self.from, self.from_slot)
    for at, one in ipairs(self.steps) do
        game:advance(one.words, one.gone)
        states[at] = game:save(self.slots[at])
    end
    self.states = states
end

-- A job's states lie in its slots, until the session has them freed.
local function put_states(session, job)
    for at, slot in ipairs(job.slots) do
        session.states[slot] = job.states[at]
    end
end

-- A job that was given up with its epoch is over, and its slots have other states now.
local function over(session, job)
    for at, slot in ipairs(job.slots) do
        local state = job.states and job.states[at]
        if session.game.free and state ~= nil then
            session.game:free(state, slot)
        end
    end
    job.states = {}
    return refused(NO_JOB)
end

-- Takes in the states of a job that was run, and answers how many of them are kept. Afterwards the job is over in any case.
function Session:graft(job)
    local handle = whole(self)
    if not job.states then
        error("the job wasn't run", 2)
    end
    if job.epoch ~= self.epochs then
        return over(self, job)
    end
    put_states(self, job)
    self.jobs[job] = nil
    return answered(lib.fazgrond_graft(handle, job.number, number))
end

-- Gives a job up. It may not be run any more.
function Session:forget(job)
    local handle = open(self)
    if job.epoch ~= self.epochs then
        return over(self, job)
    end
    if job.states then
        put_states(self, job)
    end
    self.jobs[job] = nil
    return done(lib.fazgrond_forget(handle, job.number))
end

-- Gives all jobs up that are out, as of an epoch before.
local function give_up(session)
    for job in pairs(session.jobs) do
        job.epoch = nil
        lib.fazgrond_forget(session.handle, job.number)
    end
    session.jobs = {}
end

-- A frame of a sync test, whose state is saved in a slot: its digest.
local function tested(run, words, slot)
    local game = run.game
    game:advance({ unpack(words) }, 0)
    run.states[slot] = game:save(slot)
    return game:digest(run.states[slot], slot)
end

-- Which of some frames is the first that comes out another. The states lie in the slots from 0 on, and those of frames that are run
-- again in the one after.
local function first_other(run, rows)
    local game, states, digests, other = run.game, run.states, {}, nil
    states[0] = game:save(0)
    digests[0] = game:digest(states[0], 0)
    for at, words in ipairs(rows) do
        digests[at] = tested(run, words, at)
    end
    game:load(states[0], 0)
    for at, words in ipairs(rows) do
        if tested(run, words, #rows + 1) ~= digests[at] then
            other = other or at - 1
        end
        free_state(run, #rows + 1)
    end
    for at = #rows, 0, -1 do
        if game:digest(states[at], at) ~= digests[at] then
            other = math.min(other or at, at)
        end
        free_state(run, at)
    end
    return other
end

-- A sync test: does a game come out the same when it is run again? It runs frames with these words (a list for each frame), `depth` at
-- a time (8), goes back to the state before them and runs them once more. Answers the first frame that comes out another, or whose
-- state before it has changed since it was saved; nil if there is none. The game needs its `digest`, and is afterwards at its last
-- frame.
function fazgrond.sync_test(game, rows, depth)
    check_needed(game, "games", "save", "load", "advance", "digest")
    depth = u32("depth", depth or 8, 4294967295, 1)
    for first = 1, #rows, depth do
        local some = {}
        for frame = first, math.min(first + depth - 1, #rows) do
            table.insert(some, words_of(("rows[%d]"):format(frame), rows[frame]))
        end
        local other = first_other({ game = game, states = {} }, some)
        if other then
            return first - 1 + other
        end
    end
end

-- From now on no state is saved in a slot from this one on.
function Session:limit_slots(slots)
    return done(lib.fazgrond_limit_slots(open(self), u32("slots", slots)))
end

-- Makes room for so many more events of the log.
function Session:reserve_log(events)
    return done(lib.fazgrond_reserve_log(open(self), u32("events", events)))
end

-- The current frame.
function Session:frame()
    return answered(lib.fazgrond_frame(open(self), number))
end

-- How many rows are settled: they never change.
function Session:settled()
    return answered(lib.fazgrond_settled(open(self), number))
end

-- A settled row: its words, and the bits of those who have left.
function Session:settled_row(frame)
    return row_answered(lib.fazgrond_settled_row(open(self), u32("frame", frame), row_out))
end

-- The settled frame, the state after all settled rows, and its slot.
function Session:settled_state()
    local code = lib.fazgrond_settled_slot(whole(self), number, number + 1)
    if code == OK then
        return number[0], self.states[number[1]], number[1]
    end
    return refused(code)
end

-- How many words of a player are confirmed.
function Session:confirmed(player)
    return answered(lib.fazgrond_confirmed(open(self), u8(player), number))
end

-- The confirmed word of a player at a frame.
function Session:confirmed_word(player, frame)
    return answered(lib.fazgrond_confirmed_word(open(self), u8(player), u32("frame", frame), number))
end

-- The frame in which a local player's next word counts.
function Session:input_frame(player)
    return answered(lib.fazgrond_input_frame(open(self), u8(player), number))
end

-- How many entries the log has.
function Session:log_length()
    local code = lib.fazgrond_log_length(open(self), size)
    if code == OK then
        return tonumber(size[0])
    end
    return refused(code)
end

-- The entry at a place of the log, from 0: a table with `kind` ("local", "remote", "disconnect", "sync", "advance" or "graft"),
-- `player`, `frame` and `word`.
function Session:log_entry(place)
    local code = lib.fazgrond_log_entry(open(self), u32("place", place), entry_out)
    if code == OK then
        return entry_of(entry_out[0])
    end
    return refused(code)
end

-- By how many frames this machine is behind the other one, and the other behind this one, if there is no peer.
function Session:note_advantages(here, there)
    local least, most = -2147483648, 2147483647
    local handle = open(self)
    return done(lib.fazgrond_note_advantages(handle, u32("here", here, most, least), u32("there", there, most, least)))
end

-- How many frames this machine should wait.
function Session:frames_ahead()
    return answered(lib.fazgrond_frames_ahead(open(self), number))
end

-- The text of the last rollback's claim.
function Session:claim()
    local handle = open(self)
    local code, out = lib.fazgrond_claim(handle, bytes_out, DATAGRAM, size), bytes_out
    if code == TOO_SHORT then
        out = ffi.new("uint8_t[?]", size[0])
        code = lib.fazgrond_claim(handle, out, size[0], size)
    end
    if code == OK then
        return ffi.string(out, size[0])
    end
    return refused(code)
end

-- ---- The network of a match at one of its machines, beside a session. `now` is this machine's clock in milliseconds.

local MATCH = set_of [[me machines owners number numbers draw digest opening comers silent_after notify_after stalled_after words held_turns
    carries]]

-- The number of a match with a machine: that of `me`, and of those that there aren't, isn't read.
local function number_with(given, machine)
    local own = given.numbers and given.numbers[machine]
    if own ~= nil then
        return u64(("numbers[%d]"):format(machine), own)
    elseif given.number ~= nil then
        return u64("number", given.number)
    elseif given.numbers == nil or machine < given.machines and machine ~= given.me then
        error(("matches need `%s`"):format(given.numbers and ("numbers[%d]"):format(machine) or "number"), 5)
    end
    return 0
end

-- A match as fazgrond_match_for has it, with what the game says.
local function match_of(given)
    check_needed(given, "matches", "me", "machines", "owners")
    local match = makers.match_for(u32("machines", given.machines), u32("me", given.me))
    for machine = 0, MACHINES - 1 do
        match.numbers[machine] = number_with(given, machine)
    end
    put_by_players(match.owners, "owners", given.owners)
    match.draw = u64("draw", given.draw or fazgrond.random_number())
    put(match, given, "digest opening", digest_of)
    put(match, given, "comers", u64)
    put(match, given, "silent_after notify_after stalled_after words held_turns")
    return match
end

local EPOCH = set_of [[id base words threshold machines owners delays]]

-- An epoch as C has it.
local function epoch_of(given)
    check_needed(given, "epochs", "threshold", "owners")
    local epoch = makers.epoch_for(makers.match_for(0, 0), makers.settings_for(0))
    put(epoch, given, "id base", u64)
    put(epoch, given, "words threshold machines")
    put_by_players(epoch.owners, "owners", given.owners)
    put_by_players(epoch.delays, "delays", given.delays)
    return epoch
end

local function open_peer(handle, session, match, epoch)
    if epoch then
        return lib.fazgrond_peer_open_lasting(handle, session, match_of(match), epoch_of(epoch))
    end
    local opening = match.carries and lib.fazgrond_peer_open_carrying or lib.fazgrond_peer_open
    return opening(handle, session, match_of(match))
end

-- Opens the network of a match: `me`, `machines` and `owners` (the machine of each player, player 1's first), `number` (or
-- `numbers`, by machines from 0), and if they are to be others `digest`, `opening` (a digest of the opening state, which is compared before
-- the match begins), `draw` (random bits), `silent_after`, `notify_after`, `stalled_after`, `words` and `held_turns`. With `carries`, in a
-- match of three machines or more, it hands on what two others send each other whose line is broken, and they for it: see `send_more`.
-- With an `epoch` the match goes on in epochs, beginning with this one, and carries: see `fazgrond.epoch`. Who may come to it `comers`
-- says: see `fazgrond.ticket`.
function fazgrond.peer(session, match, epoch)
    check_options(match, MATCH, "matches")
    if epoch then
        check_options(epoch, EPOCH, "epochs")
    end
    local handle, beside = new_handle "peer", open(session)
    local peer, name, code = opened(Peer, handle, open_peer(handle, beside, match, epoch))
    if not peer then
        return nil, name, code
    end
    peer.session = session
    return peer
end

-- Takes a datagram that came.
function Peer:receive(bytes, now)
    local handle, beside = open(self), open(self.session)
    local datagram, length = octets("bytes", bytes)
    return done(lib.fazgrond_peer_receive(handle, beside, datagram, length, milliseconds(now)))
end

-- Once a turn, before the session's own calls.
function Peer:poll(now)
    return done(lib.fazgrond_peer_poll(open(self), open(self.session), milliseconds(now)))
end

-- Whether the match has begun: give the session no words before.
function Peer:is_running()
    return flagged(lib.fazgrond_peer_is_running(open(self), number))
end

-- The datagram to send to a machine in this turn; nil and "nothing" if there is none.
function Peer:send(machine, now)
    local session = open(self.session)
    return written(lib.fazgrond_peer_send(open(self), session, u8(machine), milliseconds(now), bytes_out, DATAGRAM, size))
end

-- Once `send` was called for each other machine, what a peer that carries has to send besides in this turn: a machine, and the
-- datagram for it; nil and "nothing" if there is no more. `for machine, bytes in peer.send_more, peer do` has all of it.
function Peer:send_more()
    local more, name, code = written(lib.fazgrond_peer_send_more(open(self), machine_out, bytes_out, DATAGRAM, size))
    if not more then
        return nil, name, code
    end
    return machine_out[0], more
end

-- The datagram that says to a machine that this one leaves, and why: `numbers.BYE_LEAVES`, if nothing else is said. Send it a few times.
function Peer:bye(machine, why)
    return written(lib.fazgrond_peer_bye(open(self), u8(machine), u8(why or numbers.BYE_LEAVES), bytes_out, DATAGRAM, size))
end

-- Regards a machine as gone, for good.
function Peer:disconnect(machine)
    return done(lib.fazgrond_peer_disconnect(open(self), u8(machine)))
end

-- Tells the others a digest of the settled state: this one, or what the game's function `digest` makes of that state.
function Peer:note_settled(digest)
    local session = self.session
    local handle, beside = open(self), whole(session)
    if digest == nil then
        local frame, state, slot = session:settled_state()
        if frame == session.noted or not session.game.digest then
            return true
        end
        session.noted = frame
        digest = session.game:digest(state, slot)
    end
    return done(lib.fazgrond_peer_note_settled(handle, beside, digest_of("digest", digest)))
end

local OF_EVENT = { "code", "machine", "player", "count", "total", "frames_ahead", "disconnect_in", "frame", "field", "bye" }

-- What happened, the oldest first: a table with its `name` ("time_sync", say) and all that fazgrond_event has; nil if nothing
-- did.
function Peer:event()
    local code = lib.fazgrond_peer_event(open(self), event_out)
    if code ~= OK then
        return refused(code)
    end
    local event = members_of(event_out, OF_EVENT)
    event.name = declared.events[event.code]
    return event
end

-- All that has happened, for a loop: `for event in peer:events() do`.
function Peer:events()
    return self.event, self
end

local OF_STATS = { "sent", "received", "lost", "words_queued", "frames_behind", "their_frames_behind", "refused", "dropped" }

-- What was counted and measured of a machine. `round_trip` is there once it was measured.
function Peer:stats(machine)
    local code = lib.fazgrond_peer_stats(open(self), u8(machine), stats_out)
    if code ~= OK then
        return refused(code)
    end
    local stats = members_of(stats_out, OF_STATS)
    stats.round_trip = stats_out.is_measured ~= 0 and stats_out.round_trip or nil
    stats.restarted = stats_out.restarted ~= 0
    return stats
end

-- The words that wait, in the order in which they came, as entries of a log, if the match holds words back.
function Peer:waiting()
    local words = {}
    for at = 1, tonumber(lib.fazgrond_peer_waiting(open(self), entry_out, numbers.HELD_WORDS)) do
        words[at] = entry_of(entry_out[at - 1])
    end
    return words
end

-- How many frames the session would have to run again, if the first so many words that wait were handed over.
function Peer:rerun(count)
    return answered(lib.fazgrond_peer_rerun(open(self), open(self.session), u32("count", count), number))
end

-- A guess with all words that wait, up to the frame `last`: its job, as that of a session's guess.
function Peer:guess(last)
    return job_of(self.session, lib.fazgrond_peer_guess(open(self), whole(self.session), u32("last", last), number))
end

-- Hands the first so many words that wait over to the session, or all of them.
function Peer:hand_over(count)
    return done(lib.fazgrond_peer_hand_over(open(self), open(self.session), u32("count", count or numbers.HELD_WORDS)))
end

-- Once a turn: hands over the words that have waited for their turns, and answers how many they were.
function Peer:hand_over_due()
    return answered(lib.fazgrond_peer_hand_over_due(open(self), open(self.session), number))
end

-- Whether words wait without which the session would stand at its next frame.
function Peer:is_pressed()
    return flagged(lib.fazgrond_peer_is_pressed(open(self), open(self.session), number))
end

-- ---- A match that goes on in epochs: with other machines, owners or delays. In each turn, after `poll` and before the session is given
-- words: `go_on`. After `send` to a machine, send it what `send_before` has, too.

local OF_EPOCH = { "id", "base", "words", "threshold", "machines" }

-- The first epoch of a match whose sessions have these settings, for `fazgrond.peer`: `id`, `base`, `words`, `threshold`, `machines`,
-- `owners` and `delays`. Settings have a delay for the machine's own players alone: put those of the others into `delays`.
function fazgrond.epoch(match, settings)
    check_options(match, MATCH, "matches")
    check_options(settings, SETTINGS, "settings")
    check_needed(match, "matches", "machines", "owners")
    local of, told = makers.match_for(u32("machines", match.machines), 0), settings_of(settings)
    put(of, match, "words")
    local epoch = members_of(makers.epoch_for(of, told), OF_EPOCH)
    epoch.owners, epoch.delays = {}, {}
    for player = 1, settings.players do
        epoch.owners[player], epoch.delays[player] = match.owners[player], told.delays[player - 1]
    end
    return epoch
end

-- Whether a machine is in an epoch: it owns a player there. Send to those that are in the one which is played, but for this machine.
function fazgrond.epoch_has(epoch, machine)
    u8(machine)
    for player = 1, PLAYERS do
        if machine < MACHINES and epoch.owners[player] == machine then
            return true
        end
    end
    return false
end

-- How the epoch opened that is played now: a table as that of `fazgrond.epoch`, by which somebody who comes can open it too. `id` and
-- `base` are 64-bit numbers of LuaJIT. The owner of a player whom nobody owns is `numbers.NOBODY`. At what frame of the whole match the
-- session is: the base and its frame, together. nil and "nothing" if the match doesn't go on in epochs.
function Peer:epoch()
    local code = lib.fazgrond_peer_epoch(open(self), epoch_out)
    if code ~= OK then
        return refused(code)
    end
    local epoch = members_of(epoch_out, OF_EPOCH)
    epoch.owners, epoch.delays = {}, {}
    for at = 0, PLAYERS - 1 do
        if epoch_out.owners[at] ~= numbers.NO_PLAYER then
            epoch.owners[at + 1], epoch.delays[at + 1] = epoch_out.owners[at], epoch_out.delays[at]
        end
    end
    return epoch
end

-- Whether a machine is in this epoch and was in the one before, and hasn't come in with this one. False of each in the epoch with which
-- the peer was opened; nil and "nothing" if the match doesn't go on in epochs.
function Peer:has_stayed(machine)
    return flagged(lib.fazgrond_peer_has_stayed(open(self), u8(machine), number))
end

-- The ticket by which somebody comes to a match with these `comers`, under a name of 32 bits: a mark with another one is void.
function fazgrond.ticket(comers, name)
    need_library()
    return lib.fazgrond_ticket(u64("comers", comers), u32("name", name))
end

local MARK = set_of [[threshold ticket comes delays]]

-- Puts a mark on the next word that a player of this machine gives: the epoch ends after that frame. The mark may have a new
-- `threshold`, new `delays` by players of this machine, and a `ticket` of somebody who `comes` with a list of players. With none of
-- them, or without a mark, the frames begin anew, and that is all.
function Peer:mark(player, given)
    local handle, session = open(self), open(self.session)
    given = given or {}
    check_options(given, MARK, "marks")
    local mark = makers.mark_for()
    put(mark, given, "threshold")
    put(mark, given, "ticket", u64)
    put_by_players(mark.delays, "delays", given.delays)
    for _, comes in ipairs(given.comes or {}) do
        mark.comes[place_of(comes)] = 1
    end
    return done(lib.fazgrond_peer_mark(handle, session, u8(player), mark))
end

-- Goes on in the next epoch if this one is over: answers at what frame of it the session is, whose frames begin anew; nil and
-- "nothing" if it isn't over. Jobs that are out are given up first: what is grafted of them is refused ("no_job").
function Peer:go_on()
    local session = self.session
    local peer, handle = open(self), whole(session)
    local code = lib.fazgrond_peer_go_on(peer, handle, number)
    if code == JOBS_OUT then
        give_up(session)
        code = lib.fazgrond_peer_go_on(peer, handle, number)
    end
    if code ~= OK then
        return refused(code)
    end
    local frames = number[0]
    session.epochs = session.epochs + 1
    session.noted = nil
    carry_out(session)
    return frames
end

-- What is to be sent, after `send`, to a machine in the epoch before; nil and "nothing" if there is nothing.
function Peer:send_before(machine, now)
    return written(lib.fazgrond_peer_send_before(open(self), u8(machine), milliseconds(now), bytes_out, DATAGRAM, size))
end

-- ---- Spectators: a host's end of a viewer's line, and the viewer's.

local LINE = set_of [[number draw digest opening host machines owners silent_after]]

local function line_settings_of(given)
    check_needed(given, "lines", "number", "host", "machines", "owners")
    local settings = ffi.new "fazgrond_line_settings"
    settings.number = u64("number", given.number)
    settings.draw = u64("draw", given.draw or fazgrond.random_number())
    put(settings, given, "digest opening", digest_of)
    settings.owners, settings.silent_after = makers.match_for(0, 0).owners, numbers.SILENT_AFTER
    put_by_players(settings.owners, "owners", given.owners)
    put(settings, given, "host machines silent_after")
    return settings
end

local OF_LINE = { "rows", "settled", "silence" }

local function look_answered(code)
    if code ~= OK then
        return refused(code)
    end
    local state = members_of(line_out, OF_LINE)
    state.is_playing, state.has_ended = line_out.is_playing ~= 0, line_out.has_ended ~= 0
    state.is_silent = line_out.is_silent ~= 0
    return state
end

-- Opens a host's end of a viewer's line, beside the session of its match.
function fazgrond.line(session, settings)
    check_options(settings, LINE, "lines")
    local handle = new_handle "line"
    local line, name, code = opened(Line, handle, lib.fazgrond_line_open(handle, line_settings_of(settings)))
    if not line then
        return nil, name, code
    end
    line.session = session
    return line
end

function Line:receive(bytes, now)
    local handle, datagram, length = open(self), octets("bytes", bytes)
    return done(lib.fazgrond_line_receive(handle, datagram, length, milliseconds(now)))
end

-- The datagram to send to the viewer in this turn; nil and "nothing" once the line has ended.
function Line:send(now)
    return written(lib.fazgrond_line_send(open(self), open(self.session), milliseconds(now), bytes_out, DATAGRAM, size))
end

-- The same of a line of the epoch before, in a match that goes on in epochs, by its peer. Rows are counted from an epoch's first frame
-- on, so a line is of one epoch: open another one for the next. nil and "nothing" too if there is no epoch before, or nobody can be in
-- it any more.
function Line:send_before(peer, now)
    return written(lib.fazgrond_line_send_before(open(self), open(peer), milliseconds(now), bytes_out, DATAGRAM, size))
end

-- The line ends: the datagram that says so, or nil and "nothing" if nobody is to be told.
function Line:bye()
    return written(lib.fazgrond_line_bye(open(self), bytes_out, DATAGRAM, size))
end

-- How far the two ends are.
function Line:look(now)
    return look_answered(lib.fazgrond_line_look(open(self), milliseconds(now), line_out))
end

-- Opens a viewer's end of a line.
function fazgrond.viewer(settings)
    check_options(settings, LINE, "lines")
    local handle = new_handle "viewer"
    return opened(Viewer, handle, lib.fazgrond_viewer_open(handle, line_settings_of(settings)))
end

-- Takes a datagram that came of the host, and answers how many rows were taken from it.
function Viewer:receive(bytes, now)
    local handle, datagram, length = open(self), octets("bytes", bytes)
    return answered(lib.fazgrond_viewer_receive(handle, datagram, length, milliseconds(now), number))
end

function Viewer:send(now)
    return written(lib.fazgrond_viewer_send(open(self), milliseconds(now), bytes_out, DATAGRAM, size))
end

function Viewer:bye()
    return written(lib.fazgrond_viewer_bye(open(self), bytes_out, DATAGRAM, size))
end

-- The next row to play, from frame 0 on: its words, and the bits of those who have left.
function Viewer:row()
    return row_answered(lib.fazgrond_viewer_row(open(self), row_out))
end

-- All rows that are there, for a loop: `for words, gone in viewer:rows() do`.
function Viewer:rows()
    return self.row, self
end

function Viewer:look(now)
    return look_answered(lib.fazgrond_viewer_look(open(self), milliseconds(now), line_out))
end

-- ---- What a player may press next.

-- Opens the habits of a player. Each of `parts` has those bits of a word that belong together; `likely` are words that the player
-- will probably give.
function fazgrond.habits(parts, likely)
    local handle = new_handle "habits"
    local masks, count = array_of("parts", parts or {})
    local words, more = array_of("likely", likely or {})
    return opened(Habits, handle, lib.fazgrond_habits_open(handle, masks, count, words, more))
end

-- Notes the player's next confirmed word, each once.
function Habits:note(word)
    return done(lib.fazgrond_habits_note(open(self), word_of("word", word)))
end

-- The best guesses, best first, if so many frames have no word of the player yet: tables with `words` and their `worth`.
function Habits:guesses(frames, most)
    local best = {}
    local handle, room = open(self), math.min(u32("most", most or MOST_GUESSES), MOST_GUESSES)
    local count = lib.fazgrond_habits_guesses(handle, u32("frames", frames), foreseen_out, room)
    for at = 1, tonumber(count) do
        local foreseen, words = foreseen_out[at - 1], {}
        for place = 1, foreseen.count do
            words[place] = foreseen.words[place - 1]
        end
        best[at] = { words = words, worth = foreseen.worth }
    end
    return best
end

-- ---- A state in pieces, before a match. It is called by a table: `which`, `frame`, `length`, `digest` (a string of 32 bytes).

local function name_answered(code)
    if code ~= OK then
        return refused(code)
    end
    local name = members_of(name_out, { "which", "frame", "length" })
    name.digest = ffi.string(name_out.digest, numbers.DIGEST_BYTES)
    return name
end

local function state_name_of(given)
    local name = ffi.new "fazgrond_state_name"
    if #given.digest ~= numbers.DIGEST_BYTES then
        error("the digest of a state has 32 bytes", 3)
    end
    name.which, name.frame, name.length = u64("which", given.which), u32("frame", given.frame), u32("length", given.length)
    ffi.copy(name.digest, given.digest, numbers.DIGEST_BYTES)
    return name
end

local function bytes_answered(code, out, length)
    if code == OK then
        return ffi.string(out, length)
    end
    return refused(code)
end

-- Opens who gives a state: a string, which is the state of a number of yours, and of a frame.
function fazgrond.giver(which, frame, bytes)
    local handle = new_handle "giver"
    local state, length = octets("bytes", bytes)
    return opened(Giver, handle, lib.fazgrond_giver_open(handle, u64("which", which), u32("frame", frame), state, length))
end

-- What its state is called: tell it those who are to take it.
function Giver:name()
    return name_answered(lib.fazgrond_giver_name(open(self), name_out))
end

-- The state's bytes.
function Giver:bytes()
    local handle, length = open(self), self:name().length
    local out = ffi.new("uint8_t[?]", length)
    return bytes_answered(lib.fazgrond_giver_bytes(handle, out, length), out, length)
end

-- The datagram to send for the piece that bytes ask for at this place of their list, from 0; nil and "nothing" if there is none.
function Giver:reply(match_number, me, bytes, place)
    local handle, shared, asked, length = open(self), u64("match_number", match_number), octets("bytes", bytes)
    return written(lib.fazgrond_giver_reply(handle, shared, u8(me), asked, length, u32("place", place), bytes_out, DATAGRAM, size))
end

-- Opens who takes the state of this name, if it has no more bytes than `limit`.
function fazgrond.taker(name, limit)
    local handle = new_handle "taker"
    return opened(Taker, handle, lib.fazgrond_taker_open(handle, state_name_of(name), u32("limit", limit)))
end

-- What its state is called.
function Taker:name()
    return name_answered(lib.fazgrond_taker_name(open(self), name_out))
end

-- How many pieces the state has, and how many of them are missing.
function Taker:look()
    local code = lib.fazgrond_taker_look(open(self), taker_out)
    if code == OK then
        return tonumber(taker_out.pieces), tonumber(taker_out.left)
    end
    return refused(code)
end

-- The datagram that asks for the next missing pieces, so many at most; nil and "nothing" if none is missing.
function Taker:send(match_number, me, most)
    local handle, shared = open(self), u64("match_number", match_number)
    return written(lib.fazgrond_taker_send(handle, shared, u8(me), u32("most", most), bytes_out, DATAGRAM, size))
end

-- What came of a piece: "piece_taken", "piece_again", "state_whole" or "state_wrong", and the machine if one is named.
function Taker:receive(match_number, bytes)
    local handle, shared, datagram, length = open(self), u64("match_number", match_number), octets("bytes", bytes)
    local code = lib.fazgrond_taker_receive(handle, shared, datagram, length, heard_out)
    if code == OK then
        return HEARD[heard_out.what], heard_out.machine ~= numbers.NO_MACHINE and heard_out.machine or nil
    end
    return refused(code)
end

-- Whether pieces of a machine are taken for now.
function Taker:takes_of(machine)
    return flagged(lib.fazgrond_taker_takes_of(open(self), u8(machine), number))
end

-- From now on pieces of this machine alone are taken, or without one of each that gave no wrong state.
function Taker:take_of(machine)
    return done(lib.fazgrond_taker_take_of(open(self), u8(machine or numbers.NO_MACHINE)))
end

-- The state's bytes, once it is whole; nil and "nothing" before.
function Taker:bytes()
    local handle, length = open(self), self:name().length
    local out = ffi.new("uint8_t[?]", length)
    return bytes_answered(lib.fazgrond_taker_bytes(handle, out, length), out, length)
end

-- Which machine sent a piece of a state or asks for some; nil and "nothing" if the datagram is for a peer.
function fazgrond.state_sender(bytes)
    need_library()
    local datagram, length = octets("bytes", bytes)
    local code = lib.fazgrond_state_sender(datagram, length, machine_out)
    if code == OK then
        return machine_out[0]
    end
    return refused(code)
end

-- A match's digest that has a state in it, beside what another has.
function fazgrond.state_digest(name, digest)
    need_library()
    return lib.fazgrond_state_digest(state_name_of(name), digest_of("digest", digest))
end

-- The datagram that asks what a state is called, and what the piece says that comes for it.
function fazgrond.state_ask(match_number, me, which, frame)
    need_library()
    local shared, state = u64("match_number", match_number), u64("which", which)
    return written(lib.fazgrond_state_ask(shared, u8(me), state, u32("frame", frame), bytes_out, DATAGRAM, size))
end

function fazgrond.state_told(match_number, bytes)
    need_library()
    local shared, datagram, length = u64("match_number", match_number), octets("bytes", bytes)
    return name_answered(lib.fazgrond_state_told(shared, datagram, length, name_out))
end

-- ---- Which numbers of datagrams were taken, for whoever encrypts them.

local Window = {}
Window.__index = Window

-- None was taken yet.
function fazgrond.window()
    need_library()
    return setmetatable({ inside = ffi.new "fazgrond_window" }, Window)
end

-- Whether a number is new: it wasn't taken, and none was taken that is over 1,024 above it. Ask before you open the datagram.
function Window:is_new(number)
    return lib.fazgrond_window_is_new(self.inside, u64("number", number)) ~= 0
end

-- Takes a number, if it is new, and says whether it was. Call it once the datagram is known to be genuine.
function Window:note(number)
    return lib.fazgrond_window_note(self.inside, u64("number", number)) ~= 0
end

return fazgrond
