-- A match of two peers in one process, and a viewer who watches machine 0.
local fazgrond = require "fazgrond"
local Sum = require "sum"
local Ways = require "ways"

local FRAMES, TURN_MILLISECONDS, VIEWER = 600, 16, 2

local function word_of(me, frame)
    return math.floor(math.floor(frame / (5 + 2 * me)) * 2654435761 % 4294967296 / 2 ^ 28)
end

-- A game leaves `draw` out. Here it is another one for each end, and always the same.
local draw = 0ULL
local function new_draw()
    draw = draw + 0x9e3779b97f4a7c15ULL
    return draw
end

local function new_machine(me)
    local game = Sum.new(31, 1000003)
    local session = assert(fazgrond.session({ players = 2, locals = { me + 1 }, limit = FRAMES }, game))
    local match = { me = me, machines = 2, owners = { 0, 1 }, number = 0x5eed5eed5eed5eedULL, draw = new_draw() }
    return { me = me, session = session, peer = assert(fazgrond.peer(session, match)) }
end

local both = { [0] = new_machine(0), new_machine(1) }

local function line_settings()
    return { number = 0x1157e2, draw = new_draw(), host = 0, machines = 2, owners = { 0, 1 }, silent_after = 5000 }
end

local line = assert(fazgrond.line(both[0].session, line_settings()))
local viewer = assert(fazgrond.viewer(line_settings()))
local ways, seen = Ways.new(VIEWER), Sum.new(31, 1000003)

local function take_turn(self, turn)
    local now = turn * TURN_MILLISECONDS
    for _, datagram in ipairs(ways:due_backwards(self.me, turn)) do
        local to = datagram.from == VIEWER and line or self.peer
        to:receive(datagram.bytes, now) -- what is refused has changed nothing
    end
    assert(self.peer:poll(now))
    if self.peer:is_running() then
        self.session:turn(word_of(self.me, assert(self.session:frame())))
    end
    ways:send(1 - self.me, self.me, turn, assert(self.peer:send(1 - self.me, now)))
end

local function look_on(turn)
    local now = turn * TURN_MILLISECONDS
    for _, datagram in ipairs(ways:due_backwards(VIEWER, turn)) do
        viewer:receive(datagram.bytes, now)
    end
    for words, gone in viewer:rows() do
        seen:advance(words, gone)
    end
    local bytes = seen.steps < FRAMES and viewer:send(now) or viewer:bye() -- it has seen all
    ways:send(0, VIEWER, turn, assert(bytes))
end

local turn = 0
repeat
    take_turn(both[0], turn)
    take_turn(both[1], turn)
    local bytes = line:send(turn * TURN_MILLISECONDS)
    if bytes then
        ways:send(VIEWER, 0, turn, bytes)
    end
    look_on(turn)
    local state = assert(line:look(turn * TURN_MILLISECONDS))
    turn = turn + 1
until state.has_ended
print(("viewer: rows %d state %d"):format(seen.steps, seen.state))
