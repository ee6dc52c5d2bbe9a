-- A match that goes on in epochs: two machines mark, and come to the state of the game that is run once over all words, in the same
-- epochs. Somebody watches each of them, and is told of the first epoch after its end.
local fazgrond = require "fazgrond"
local Sum = require "sum"

local FRAMES, TURN = 200, 16
-- Who may come, and the ticket of the name 3: hashlib of Python made it.
local COMERS, TICKET = 0xfedcba9876543210ULL, 0xa00ed4d700000003ULL

local function is(found, wanted)
    if found ~= wanted then
        error(("%s, and not %s"):format(tostring(found), tostring(wanted)), 2)
    end
end

local function word_of(player, frame)
    return math.floor(frame / (2 + player)) % 5 + player
end

-- Which machines were in the epoch before, and are in this one.
local function stayed(peer)
    local found = {}
    for machine = 0, 255 do
        if peer:has_stayed(machine) then
            table.insert(found, machine)
        end
    end
    return table.concat(found, " ")
end

local function line_of(host, draw)
    return { number = 8, draw = draw, host = host, machines = 2, owners = { 0, 1 } }
end

local function new_machine(me)
    local settings = { players = 2, locals = { me + 1 } }
    local match = {
        me = me, machines = 2, owners = { 0, 1 }, number = 7, comers = COMERS, draw = 70 + me, silent_after = 0, notify_after = 0,
    }
    local epoch = fazgrond.epoch(match, settings)
    local session = assert(fazgrond.session(settings, Sum.new(31, 1000003)))
    local peer = assert(fazgrond.peer(session, match, epoch))
    is(stayed(peer), "")
    is(peer:has_stayed(me), false)
    is(fazgrond.epoch_has(epoch, me) and fazgrond.epoch_has(epoch, 1 - me), true)
    is(fazgrond.epoch_has(epoch, 2) or fazgrond.epoch_has(epoch, 254) or fazgrond.epoch_has(epoch, 255), false)
    local line, viewer = assert(fazgrond.line(session, line_of(me, 21))), assert(fazgrond.viewer(line_of(me, 22)))
    is(select(2, line:send_before(peer, 0)), "nothing")
    return {
        me = me, session = session, peer = peer, line = line, viewer = viewer, is_watched = true, epochs = { peer:epoch() }, here = {},
        coming = {},
    }
end

-- The frame of the whole match.
local function frame_of(self)
    return tonumber(self.epochs[#self.epochs].base) + self.session:frame()
end

-- Who begins to watch only now is told all rows of the epoch before, since no word of the other machine in this one has come.
local function tell_past(self)
    local frame = 0
    for now = 0, 19 * TURN, TURN do
        self.viewer:receive(assert(self.line:send_before(self.peer, now)), now)
        for words, gone in self.viewer:rows() do
            is(words[1], word_of(1, frame))
            is(words[2], word_of(2, frame))
            is(gone, 0)
            frame = frame + 1
        end
        self.line:receive(assert(self.viewer:send(now)), now)
    end
    is(frame, tonumber(self.epochs[2].base))
end

-- Where somebody watches, what has come is played first, so that all rows are told of the epoch that may be over.
local function go_on(self)
    local before = frame_of(self)
    if self.is_watched and self.session:has_news() then
        assert(self.session:synchronize_input())
    end
    local frames, why = self.peer:go_on()
    if not frames then
        is(why, "nothing")
        return
    end
    table.insert(self.epochs, self.peer:epoch())
    is(self.session:frame(), frames)
    is(frame_of(self), before)
    is(stayed(self.peer), "0 1")
    if self.is_watched and #self.epochs == 2 then
        tell_past(self)
    end
end

is(fazgrond.ticket(COMERS, 0), 0xadfa742300000000ULL)
is(fazgrond.ticket(COMERS, 4294967295), 0x6994a5ddffffffffULL)

-- The second mark isn't put, since its tag isn't that of its name. Nobody gets a player by the third one, for none is free.
local MARKS = {
    [40] = { 0 },
    [80] = { 1, { threshold = 7, ticket = TICKET - 1, comes = { 1 } } },
    [120] = { 0, { threshold = 6, delays = { [1] = 0 }, ticket = fazgrond.ticket(COMERS, 3), comes = { 2 } } },
}
is(MARKS[120][2].ticket, TICKET)

local function mark(self, turn)
    local due = MARKS[turn]
    if due and due[1] == self.me then
        if self.me == 1 then
            is(select(2, self.peer:mark(self.me + 1, due[2])), "wrong_ticket")
        else
            is(self.peer:mark(self.me + 1, due[2]), true)
            is(select(2, self.peer:mark(self.me + 1)), "marked")
        end
        is(select(2, self.peer:mark(2 - self.me)), "invalid_player")
    end
end

local function take_turn(self, other, turn)
    local now = turn * TURN
    for _, bytes in ipairs(self.here) do
        self.peer:receive(bytes, now)
    end
    assert(self.peer:poll(now))
    go_on(self)
    local frame = frame_of(self)
    if self.peer:is_running() then
        mark(self, turn)
        is(select(2, self.session:turn(frame < FRAMES and word_of(self.me + 1, frame) or nil)) == "pending", false)
    end
    for event in self.peer:events() do
        is(event.name == "left" or event.name == "dropped" or event.name == "desync", false)
    end
    assert(self.peer:note_settled())
    return { self.peer:send(other.me, now), (self.peer:send_before(other.me, now)) }
end

-- A turn of both, each of which hears what the other sent in the first turn that is on the way to it.
local function both_play(all, turn)
    for at, self in ipairs(all) do
        self.here = table.remove(self.coming, 1) or {}
        table.insert(all[3 - at].coming, take_turn(self, all[3 - at], turn))
    end
end

local all, job = { new_machine(0), new_machine(1) }, nil
for turn = 0, 599 do
    both_play(all, turn)
    if turn == 110 then
        job = assert(all[1].session:guess(2, { 77 }, all[1].session:frame() + 2))
    end
end

local alone = Sum.new(31, 1000003)
for frame = 0, FRAMES - 1 do
    alone:advance({ word_of(1, frame), word_of(2, frame) }, 0)
end
for _, self in ipairs(all) do
    local last = self.epochs[3]
    is(#self.epochs, 3)
    is(frame_of(self), FRAMES)
    is(tonumber(last.base) + self.session:settled(), FRAMES)
    is(self.session.game.state, alone.state)
    is(self.epochs[2].threshold, 8)
    is(last.threshold, 6)
    local seen = self.line:look(0)
    is(seen.is_playing, true)
    is(seen.has_ended, false)
    is(select(2, self.line:send_before(self.peer, 0)), "nothing")
    for at, epoch in ipairs(self.epochs) do
        is(epoch.id, all[1].epochs[at].id)
        is(epoch.base, all[1].epochs[at].base)
        is(table.concat(epoch.owners, " ") .. table.concat(epoch.delays, " "), "0 10 0")
        is(epoch.words + epoch.machines, 3)
    end
end
is(all[1].epochs[1].id, 0ULL)

-- A job is over with its epoch.
job:run(Sum.new(31, 1000003))
is(select(2, all[1].session:graft(job)), "no_job")
is(select(2, all[1].session:forget(job)), "no_job")
is(all[1].session.game.state, alone.state)

-- A seam needs no call before: its requests come in two parts, and none of them is left to the next call.
for _, lag in ipairs { 1, 3, 5 } do
    local late = { new_machine(0), new_machine(1) }
    for _, self in ipairs(late) do
        self.is_watched = false
        for _ = 1, lag do
            table.insert(self.coming, {})
        end
    end
    for turn = 0, 399 do
        both_play(late, turn)
    end
    for _, self in ipairs(late) do
        is(#self.epochs, 3)
        is(self.epochs[3].id, late[1].epochs[3].id)
        is(tonumber(self.epochs[3].base) + self.session:settled(), FRAMES)
        is(self.session.game.state, alone.state)
    end
end

-- A match that doesn't go on in epochs.
local session = assert(fazgrond.session({ players = 2, locals = { 1 } }, Sum.new(31, 1000003)))
local match = { me = 0, machines = 2, owners = { 0, 1 }, number = 7, draw = 70 }
local peer = assert(fazgrond.peer(session, match))
is(select(2, peer:mark(1)), "no_marks")
for _, call in ipairs { "epoch", "go_on" } do
    is(select(2, peer[call](peer)), "nothing")
end
is(select(2, peer:send_before(1, 0)), "nothing")
is(select(2, peer:has_stayed(0)), "nothing")
local line = assert(fazgrond.line(session, line_of(0, 21)))
is(select(2, line:send_before(peer, 0)), "nothing")
local other = fazgrond.epoch(match, { players = 2, locals = { 1 }, threshold = 7 })
is(select(2, fazgrond.peer(session, match, other)), "invalid_request")
