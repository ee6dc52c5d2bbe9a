-- A duel whose machines are all in this process, on ways that lose a fifth and bring the others late: each prints the state at
-- the last frame. duel.lua SEED FRAMES MACHINES
local Match = require "match"
local options = require "options"
local rules = require "rules"

local seed, frames, count = tonumber(arg[1]), tonumber(arg[2]), tonumber(arg[3])
local TURN, LOST, LATE = 50 / 3, 0.2, 4
local inbox, turn = {}, 0
math.randomseed(1)

-- What machine `me` is told of the players: its own one is local.
local function words_for(me)
    local words = { "--frames", tostring(frames), "--delay", "0", "7000" }
    for machine = 0, count - 1 do
        table.insert(words, machine == me and "local" or "127.0.0.1:" .. 7000 + machine)
    end
    return words
end

local function new_line()
    local line = {}

    function line:send(to, bytes)
        if math.random() >= LOST then
            table.insert(inbox[to], { due = turn + math.random(LATE), bytes = bytes })
        end
    end

    line.send_now = line.send
    return line
end

local function new_machine(me)
    local bot = rules.bot(seed, me + 1)
    local asked = assert(options.read(words_for(me)))
    local match = assert(Match.new(asked, new_line(), function() return bot.word end, function() end))
    inbox[me] = {}
    return { me = me, bot = bot, match = match }
end

local function take_turn(self)
    local waiting = inbox[self.me]
    inbox[self.me] = {}
    for _, datagram in ipairs(waiting) do
        if datagram.due <= turn then
            self.match:receive(datagram.bytes, turn * TURN)
        else
            table.insert(inbox[self.me], datagram)
        end
    end
    if self.match:turn(turn * TURN) then
        self.bot:draw()
    end
    assert(not self.match.is_over)
end

local machines = {}
for me = 0, count - 1 do
    machines[me + 1] = new_machine(me)
end
local function are_done()
    for _, machine in ipairs(machines) do
        if not machine.match:is_done() then
            return false
        end
    end
    return true
end
while not are_done() do
    for _, machine in ipairs(machines) do
        take_turn(machine)
    end
    turn = turn + 1
    assert(turn < 10 * frames, "the match stands")
end
for _, machine in ipairs(machines) do
    assert(machine.match.all_again > 100, "next to nothing was played again")
    print(machine.match.game.at_last)
    machine.match:close()
end
