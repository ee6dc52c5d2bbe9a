-- Two machines of a match, in one process, on ways that lose datagrams and bring the others late and out of order. Where the ways
-- are, a game on two machines has its sockets.
local fazgrond = require "fazgrond"
local Sum = require "sum"
local Ways = require "ways"

local FRAMES, TURN_MILLISECONDS = 600, 16

-- What a player holds in a frame.
local function word_of(me, frame)
    return math.floor(math.floor(frame / (5 + 2 * me)) * 2654435761 % 4294967296 / 2 ^ 28)
end

-- A game leaves `draw` out: then it is drawn anew for each opening. Here it is always the same, so that this always prints the
-- same.
local function new_machine(me)
    local game = Sum.new(31, 1000003)
    local session = assert(fazgrond.session({ players = 2, locals = { me + 1 }, limit = FRAMES }, game))
    local peer = assert(fazgrond.peer(session, {
        me = me, machines = 2, owners = { 0, 1 }, number = 0x5eed5eed5eed5eedULL, draw = 0x9e3779b97f4a7c15ULL * (me + 1),
    }))
    return { me = me, session = session, peer = peer, wait = 0, rerun = 0, settled = 0 }
end

-- A frame, or at least what came too late for the frames before.
local function play(self)
    local word = word_of(self.me, assert(self.session:frame()))
    if self.wait > 0 then
        self.wait, word = self.wait - 1, nil
    end
    local frame, _, rerun = self.session:turn(word)
    self.rerun = self.rerun + (frame and rerun or 0)
end

-- A turn of the main loop.
local function take_turn(self, turn, ways)
    local now = turn * TURN_MILLISECONDS
    for _, datagram in ipairs(ways:due(self.me, turn)) do
        self.peer:receive(datagram.bytes, now) -- what is refused has changed nothing
    end
    assert(self.peer:poll(now))
    if self.peer:is_running() then -- all machines are there
        play(self)
    end
    self.settled, self.state = assert(self.session:settled_state())
    assert(self.peer:note_settled())
    for event in self.peer:events() do
        self.wait = event.name == "time_sync" and event.frames_ahead or self.wait
        self.is_alone = self.is_alone or event.name == "left"
        assert(event.name ~= "desync")
    end
end

local ways, both = Ways.new(1), { [0] = new_machine(0), new_machine(1) }
local turn = 0
while both[0].settled < FRAMES or both[1].settled < FRAMES do
    for me = 0, 1 do
        take_turn(both[me], turn, ways)
        ways:send(1 - me, me, turn, assert(both[me].peer:send(1 - me, turn * TURN_MILLISECONDS)))
    end
    turn = turn + 1
end
for me = 0, 1 do
    local self = both[me]
    local how = self.rerun > FRAMES and ", after rollbacks" or ""
    print(("machine %d: settled %d state %d%s"):format(me, self.settled, self.state, how))
end
-- machine 0 leaves, and says so three times
local bye = assert(both[0].peer:bye(1))
for _ = 1, 3 do
    ways:send(1, 0, turn, bye)
end
while not both[1].is_alone do
    take_turn(both[1], turn, ways)
    turn = turn + 1
end
print("machine 1 is alone")
