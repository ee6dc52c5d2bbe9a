-- That what a match and a session are told by options reaches the library: each option makes a difference.
local fazgrond = require "fazgrond"
local Sum = require "sum"

local function is(found, wanted)
    if found ~= wanted then
        error(("%s, and not %s"):format(tostring(found), tostring(wanted)), 2)
    end
end

-- ---- Two machines, whose matches differ from a plain one in these options.

local function with(told, more)
    for name, value in pairs(more or {}) do
        told[name] = value
    end
    return told
end

local function new_machine(me, more, players)
    local locals = players == 4 and { 2 * me + 1, 2 * me + 2 } or { me + 1 }
    local game = Sum.new(31, 1000003)
    local session = assert(fazgrond.session({ players = players or 2, locals = locals }, game))
    local match = { me = me, machines = 2, owners = { 0, 1 }, number = 7, draw = 70 + me, silent_after = 0, notify_after = 0 }
    local self = { me = me, session = session, peer = assert(fazgrond.peer(session, with(match, more))), told = {} }
    self.digests, self.noted = 0, 0
    game.digest = function(_, state)
        self.digests = self.digests + 1
        return state
    end
    return self
end

local function pair(first, second, players)
    return { now = 0, new_machine(0, first, players), new_machine(1, second, players) }
end

-- Has the digest of the settled state told, more often than there are such states.
local function note_settled(self)
    local frame = assert(self.session:settled_state())
    self.noted = self.noted + (frame ~= self.settled and 1 or 0)
    self.settled = frame
    for _ = 1, 2 do
        assert(self.peer:note_settled())
    end
end

local function take_turn(both, self, word)
    assert(self.peer:poll(both.now))
    if word and self.peer:is_running() then
        self.session:turn(word)
    end
    note_settled(self)
    for event in self.peer:events() do
        self.told[event.name] = event
    end
end

-- So many turns of 16 ms, in which one or both send and play.
local function play(both, turns, words)
    for _ = 1, turns do
        both.now = both.now + 16
        for at, self in ipairs(both) do
            local other = both[3 - at]
            local bytes = self.peer:send(2 - at, both.now)
            if bytes and not both.is_cut then
                other.peer:receive(bytes, both.now)
            end
            take_turn(both, self, words and words[at])
        end
    end
    return both
end

local plain = play(pair(), 60, { 5, 6 })
is(plain[1].told.running ~= nil and plain[2].told.running ~= nil, true)
is(plain[1].session:frame() > 40, true)
is(plain[1].peer:stats(1).round_trip, 0)
is(plain[1].session:confirmed_word(2, 3), 6)
is(table.concat(plain[1].session:settled_row(20), " "), "5 6")

-- A settled state's digest is made once, and two machines that have another one are told.
is(plain[1].digests, plain[1].noted)
is(plain[1].noted > 40, true)
is(plain[2].told.desync, nil)
plain[1].session.game.digest = function(_, state)
    return state + 1
end
is(play(plain, 140, { 5, 6 })[2].told.desync.machine, 0)

-- Numbers: the same one, one for each two machines, or others.
local shared = 0x1122334455667788ULL
local paired = play(pair({ numbers = { [0] = 1, [1] = shared } }, { numbers = { [0] = shared, [1] = 3 } }), 30, { 5, 6 })
is(paired[1].told.running ~= nil, true)
is(next(play(pair({ numbers = { [1] = shared } }, { number = 5 }), 30)[1].told), nil)
is(next(play(pair({ number = 7 }, { number = 8 }), 30, { 5, 6 })[1].told), nil)
is(next(play(pair({ number = 7 }, { number = 0x100000007ULL }), 30)[1].told), nil)

-- Another digest, other owners, other words.
local differing = play(pair({ digest = 1 }, { digest = 2 ^ 40 + 1 }), 30)
is(differing[1].told.mismatch.field .. differing[2].told.mismatch.field, "33")
is(differing[1].told.mismatch.machine, 1)
differing = play(pair({ opening = 1 }, { opening = 2 ^ 40 + 1 }), 30)
is(differing[1].told.mismatch.field .. differing[2].told.mismatch.field, "66")

-- Two words of a player leave together, and come together.
local wide = { words = 2, owners = { 0, 0, 1, 1 } }
local doubled = play(pair(wide, wide, 4), 60, { { 1, 2 }, { 3, 4 } })
is(table.concat(doubled[1].session:settled_row(20), " "), "1 2 3 4")
is(doubled[2].session:confirmed(1), doubled[2].session:confirmed(2))
is(play(pair(wide, { owners = wide.owners }, 4), 30)[1].told.mismatch.field, 4)

-- A machine that isn't heard any more is told of, and then gone; if nothing is said of times, by five seconds.
local patient = play(pair({ silent_after = 500, notify_after = 200 }, {}), 30, { 5, 6 })
patient.is_cut = true
play(patient, 20, { 5, 6 })
is(patient[1].told.interrupted.disconnect_in > 100, true)
is(patient[1].told.left, nil)
play(patient, 25, { 5, 6 })
is(patient[1].told.left.machine, 1)
is(patient[1].told.disconnected.player, 2)
is(patient[2].told.left, nil)
local session = assert(fazgrond.session({ players = 2, locals = { 1 } }, Sum.new(31, 1000003)))
local alone = assert(fazgrond.peer(session, { me = 0, machines = 2, owners = { 0, 1 }, number = 7 }))
for now = 0, 4900, 100 do
    assert(alone:poll(now))
end
is(alone:event(), nil)
assert(alone:poll(5100))
is(alone:event().name, "missing")

-- A machine that is heard and gives no words.
local stalled = play(pair({ notify_after = 200, stalled_after = 600 }, {}), 30, { 5, 6 })
play(stalled, 40, { 5 })
is(stalled[1].told.stalled.machine, 1)
is(stalled[1].told.left, nil)
play(stalled, 20, { 5 })
is(stalled[1].told.left.machine, 1)

-- ---- A session's options.

local function open(more)
    return assert(fazgrond.session(with({ players = 2, locals = { 1 } }, more), Sum.new(31, 1000003)))
end

local function frames_of(of)
    while of:turn(1) do end
    return of:frame(), select(2, of:turn(1))
end

is(open({ delays = { 2 } }):input_frame(1), 2)
is(frames_of(open()), 8)
is(frames_of(open { threshold = 3 }), 3)
is(frames_of(open { profile = "wide", threshold = 12 }), 12)
is(frames_of(open { players = 5, locals = { 1 } }), 15)
is(select(2, frames_of(open { limit = 4 })), "frame_limit")
is(select(2, frames_of(open { log = 4 })), "log_full")
local masked = open { masks = { [2] = 0xf0 } }
assert(masked:remote_input(2, 0, 0x33))
assert(masked:turn(1))
is(masked:synchronize_input()[2], 0x30)

-- ---- A line's options: both ends have to mean the same.

local function ends(first, second)
    local told = { number = 9, draw = 5, host = 1, machines = 2, owners = { 0, 1 }, digest = 3 }
    local line = assert(fazgrond.line(plain[2].session, with(with({}, told), first)))
    local viewer = assert(fazgrond.viewer(with(with({}, told), with({ draw = 6 }, second))))
    local of_viewer, of_line
    for now = 0, 320, 16 do
        of_viewer = select(2, viewer:receive(assert(line:send(now)), now))
        of_line = select(2, line:receive(assert(viewer:send(now)), now))
    end
    return line, viewer, of_viewer, of_line
end

local line, viewer = ends()
is(line:look(320).is_playing, true)
is(table.concat(viewer:row(), " "), "5 6")
is(line:look(1000).silence - line:look(320).silence, 680)
is(select(3, ends({}, { digest = 4 })), "mismatched")
is(select(3, ends({}, { host = 0 })), "other_sender")
is(select(3, ends({}, { number = 10 })), "not_sealed")
is(select(3, ends({}, { owners = { 1, 0 } })), "mismatched")
line = ends({ silent_after = 200 })
is(line:look(500).is_silent, false)
for now = 520, 900, 16 do
    line:send(now)
end
is(line:look(900).is_silent, true)
