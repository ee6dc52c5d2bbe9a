-- Two machines play a match that goes on in epochs, by the calls of C, over which Lua has no class yet: match.lua
-- Inputs have 6 bytes. One machine holds the other's back, and guesses with them; a mark changes a delay.
local ffi = require "ffi"
local bit = require "bit"
local fazgrond = require "fazgrond"
local makers = require("fazgrond_cdef").makers
local numbers = fazgrond.numbers
local lib = ffi.load(os.getenv "FAZGROND_LIBRARY")
local TURNS, SIZE = 240, 6

local requests = ffi.new("fazgrond_request[?]", 16)
local bytes = ffi.new("uint8_t[?]", numbers.DATAGRAM)
local size, machine_out = ffi.new "size_t[1]", ffi.new "uint8_t[1]"
local number, slot = ffi.new "uint32_t[1]", ffi.new "uint32_t[1]"
local turn, event, stats = ffi.new "fazgrond_turn", ffi.new "fazgrond_event", ffi.new "fazgrond_stats"
local epoch, entries = ffi.new "fazgrond_epoch_now", ffi.new("fazgrond_entry[?]", numbers.HELD_WORDS)

local function is(found, wanted)
    if tonumber(found) ~= wanted then
        error(("%s, and not %s"):format(tostring(found), tostring(wanted)), 2)
    end
end

local function is_ok(answer)
    is(answer, numbers.OK)
end

-- The game: each byte of a row's inputs, one after another. Each input has two words.
local function step(state, row)
    for player = 0, 1 do
        for at = 0, SIZE - 1 do
            local word = row.words[2 * player + math.floor(at / 4)]
            state = (state * 31 + bit.band(bit.rshift(word, at % 4 * 8), 255)) % 1000003
        end
    end
    return state
end

local function carry_out(self)
    local all = 0
    while true do
        local count = tonumber(lib.fazgrond_take_requests(self.session, requests, 16))
        if count == 0 then
            return all
        end
        all = all + count
        for at = 0, count - 1 do
            local it = requests[at]
            if it.kind == numbers.LOAD then
                self.state = self.slots[it.slot]
            elseif it.kind == numbers.SAVE then
                self.slots[it.slot] = self.state
            elseif it.kind == numbers.STEP then
                self.state = step(self.state, it.row)
            elseif it.kind == numbers.JOB_LOAD then
                self.aside = self.slots[it.slot]
            elseif it.kind == numbers.JOB_SAVE then
                self.slots[it.slot] = self.aside
            elseif it.kind == numbers.JOB_STEP then
                self.aside = step(self.aside, it.row)
            end
        end
    end
end

local function new_machine(me)
    local settings = makers.match_settings_for(2, me)
    local unfit = ffi.new "fazgrond_unfit"
    local self = { me = me, session = ffi.new "fazgrond_session", state = 1, slots = { [0] = 1 } }
    self.inbox, self.digests, self.frames, self.epochs = {}, {}, 0, 0
    settings.draw, settings.lasts, settings.held_turns = 70 + me, 1, me * 2
    for player = 0, 1 do
        settings.owners[player], settings.numbers[player] = player, 7
    end
    settings.input_size = 17
    is(lib.fazgrond_match_open(self.session, settings, unfit), numbers.OUT_OF_RANGE)
    is(unfit.setting, numbers.SETTING_INPUT_SIZE)
    is(unfit.value, 17)
    settings.input_size = SIZE
    is_ok(lib.fazgrond_match_open(self.session, settings, unfit))
    is(unfit.setting, 0)
    return self
end

-- The words that wait are guessed with, and handed over once that costs nothing.
local function hand_over(self)
    local count = tonumber(lib.fazgrond_match_waiting(self.session, entries, numbers.HELD_WORDS))
    if count == 0 then
        return
    end
    is(entries[0].kind, numbers.REMOTE)
    is_ok(lib.fazgrond_frame(self.session, number))
    local job = ffi.new "uint32_t[1]"
    if lib.fazgrond_match_guess(self.session, number[0], job) == numbers.OK then
        carry_out(self)
        is_ok(lib.fazgrond_graft(self.session, job[0], number))
    end
    is_ok(lib.fazgrond_match_rerun(self.session, count, number))
    is(number[0], 0)
    is_ok(lib.fazgrond_match_is_pressed(self.session, number))
    is_ok(lib.fazgrond_match_hand_over(self.session, count))
end

local function play_turn(self, other, at)
    for _, datagram in ipairs(self.inbox) do
        lib.fazgrond_match_receive(self.session, datagram, #datagram, at * 16)
    end
    self.inbox = {}
    hand_over(self)
    local input = ffi.new("uint8_t[?]", SIZE, { at % 7, at % 5, self.me, 0, at % 3, 9 })
    repeat
        is_ok(lib.fazgrond_match_turn(self.session, input, SIZE, at * 16, turn))
        is(turn.failed, 0)
        is(turn.has_requests, carry_out(self) > 0 and 1 or 0)
        self.frames = self.frames + turn.has_played
        if turn.has_gone_on ~= 0 then
            self.epochs, self.digests = self.epochs + 1, {}
        end
    until turn.has_gone_on == 0
    is_ok(lib.fazgrond_settled_slot(self.session, number, slot))
    self.digests[number[0]] = self.slots[slot[0]]
    is_ok(lib.fazgrond_match_note(self.session, self.slots[slot[0]]))
    while lib.fazgrond_match_next(self.session, machine_out, bytes, numbers.DATAGRAM, size) == numbers.OK do
        is(machine_out[0], other.me)
        other.inbox[#other.inbox + 1] = ffi.string(bytes, size[0])
    end
    while lib.fazgrond_match_event(self.session, event) == numbers.OK do
        if event.code == numbers.DESYNC or event.code == numbers.LEFT then
            self.told, self.bye = event.code, event.bye
        end
    end
end

local one, two = new_machine(0), new_machine(1)
for at = 1, TURNS do
    if at == 100 then
        local mark = makers.mark_for()
        mark.delays[0] = 2
        is_ok(lib.fazgrond_match_mark(one.session, 1, mark))
    end
    play_turn(one, two, at)
    play_turn(two, one, at)
end
for _, self in ipairs { one, two } do
    is(self.epochs, 1)
    is(self.told or 0, 0)
    assert(self.frames > TURNS - 40)
    is_ok(lib.fazgrond_match_epoch(self.session, epoch))
    is(epoch.delays[0] * 10 + epoch.delays[1], 20)
    is(epoch.stayed[0] + epoch.stayed[1], 2)
    is_ok(lib.fazgrond_match_stats(self.session, 1 - self.me, stats))
    assert(stats.received > 0)
end

-- Wherever both have settled a frame of the second epoch, it is one state.
local common = 0
for frame, digest in pairs(one.digests) do
    if two.digests[frame] then
        is(two.digests[frame], digest)
        common = common + 1
    end
end
assert(common > 80)

-- One leaves, and the other one, which is told, regards it as gone.
is_ok(lib.fazgrond_match_leave(one.session, 20))
is(lib.fazgrond_match_disconnect(two.session, 5), numbers.INVALID_MACHINE)
play_turn(one, two, TURNS + 1)
play_turn(two, one, TURNS + 1)
is(two.told, numbers.LEFT)
is(two.bye, 20)
lib.fazgrond_close(one.session)
lib.fazgrond_close(two.session)
is(lib.fazgrond_match_leave(one.session, 20), numbers.IS_CLOSED)
