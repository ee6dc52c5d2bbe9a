-- Machines that carry for each other: of three two don't hear each other for longer than the time of silence, nobody is gone, and all
-- come to the state of the game that is run once over all words.
local fazgrond = require "fazgrond"
local Sum = require "sum"

local MACHINES, FRAMES, TURN = 3, 200, 16

local function is(found, wanted)
    if found ~= wanted then
        error(("%s, and not %s"):format(tostring(found), tostring(wanted)), 2)
    end
end

local function word_of(player, frame)
    return math.floor(frame / (2 + player)) % 5 + player
end

local function new_machine(me, machines, carries)
    local session = assert(fazgrond.session({ players = machines, locals = { me + 1 } }, Sum.new(31, 1000003)))
    local owners = { 0, 1, machines == 3 and 2 or nil }
    local peer = assert(fazgrond.peer(session, {
        me = me, machines = machines, owners = owners, number = 7, draw = 70 + me, silent_after = 500, notify_after = 0,
        carries = carries,
    }))
    return { me = me, session = session, peer = peer, here = {}, coming = {}, more = 0 }
end

local function post(all, from, to, bytes, turn)
    if turn < 40 or from + to ~= 1 then
        table.insert(all[to + 1].coming, bytes)
    end
end

local function take_turn(all, self, turn)
    local now = turn * TURN
    for _, bytes in ipairs(self.here) do
        self.peer:receive(bytes, now)
    end
    assert(self.peer:poll(now))
    local frame = self.session:frame()
    if self.peer:is_running() then
        self.session:turn(frame < FRAMES and word_of(self.me + 1, frame) or nil)
    end
    for event in self.peer:events() do
        is(event.name == "left" or event.name == "dropped" or event.name == "cut_off", false)
    end
    for to = 0, MACHINES - 1 do
        local bytes = self.peer:send(to, now)
        if bytes then
            post(all, self.me, to, bytes, turn)
        end
    end
    for to, bytes in self.peer.send_more, self.peer do
        self.more = self.more + 1
        post(all, self.me, to, bytes, turn)
    end
end

local all = { new_machine(0, 3, true), new_machine(1, 3, true), new_machine(2, 3, true) }
for turn = 0, 599 do
    for _, self in ipairs(all) do
        self.here, self.coming = self.coming, {}
    end
    for _, self in ipairs(all) do
        take_turn(all, self, turn)
    end
end

local alone = Sum.new(31, 1000003)
for frame = 0, FRAMES - 1 do
    local words = {}
    for player = 1, MACHINES do
        words[player] = word_of(player, frame)
    end
    alone:advance(words, 0)
end
for _, self in ipairs(all) do
    is(self.session:frame(), FRAMES)
    is(self.session:settled(), FRAMES)
    is(self.session.game.state, alone.state)
    is(self.more > 0, true)
end

-- A peer that doesn't carry has nothing more to send, and one of two machines neither.
for _, carries in ipairs { false, true } do
    is(select(2, new_machine(0, 2, carries).peer:send_more()), "nothing")
end
