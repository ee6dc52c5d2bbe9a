-- Two players on a line, each on a machine of their own. Both machines are in this process, and each word reaches the other
-- machine three turns late.
--
-- A line of the input is a turn. Player 1 goes by `a` and `d` and hits by `s`, player 2 goes by `j` and `l` and hits by `k`. A
-- turn prints what each machine shows.
local bit = require "bit"
local fazgrond = require "fazgrond"

local LATE, WIDTH, REACH = 3, 20, 2
local LEFT, RIGHT, HIT = 1, 2, 4

-- The game: its state, and what a frame makes of it.

local Game = {}
Game.__index = Game

local function copy_of(state)
    return { place = { state.place[1], state.place[2] }, points = { state.points[1], state.points[2] } }
end

local function new_game()
    return setmetatable({ now = { place = { 5, 14 }, points = { 0, 0 } } }, Game)
end

function Game:save()
    return copy_of(self.now)
end

function Game:load(state)
    self.now = copy_of(state)
end

local function is_held(word, button)
    return bit.band(word, button) ~= 0
end

local function walked(place, word)
    place = is_held(word, LEFT) and math.max(place - 1, 0) or place
    return is_held(word, RIGHT) and math.min(place + 1, WIDTH - 1) or place
end

function Game:advance(words)
    local place, points = self.now.place, self.now.points
    for player = 1, 2 do
        place[player] = walked(place[player], words[player])
    end
    for player = 1, 2 do
        if math.abs(place[1] - place[2]) <= REACH and is_held(words[player], HIT) then
            points[player] = points[player] + 1
        end
    end
end

-- A machine: its session, its game, and the words that are on the way to it.

local function new_machine(me)
    local game, both = new_game(), LEFT + RIGHT -- a hit isn't held
    local session = assert(fazgrond.session({ players = 2, locals = { me }, masks = { both, both } }, game))
    return { me = me, other = 3 - me, game = game, session = session, line = {} }
end

-- Takes each word that is due, and rolls back if one was predicted wrong.
local function hear(self, turn)
    while self.line[1] and self.line[1].due <= turn do
        local packet = table.remove(self.line, 1)
        assert(self.session:remote_input(self.other, packet.frame, packet.word))
    end
    assert(self.session:synchronize_input())
end

-- Plays a frame, unless the machine is too far ahead of the other's words.
local function play(self, other, turn, word)
    local frame = assert(self.session:input_frame(self.me))
    local is_taken, why = self.session:add_local_input(self.me, word)
    if why == "prediction_threshold" then
        return
    end
    assert(is_taken, why)
    table.insert(other.line, { due = turn + LATE, frame = frame, word = word })
    assert(self.session:advance_frame())
end

-- Keys and picture.

local function buttons(keys, left, right, hit)
    local function bit_of(key, button)
        return keys:find(key, 1, true) and button or 0
    end
    return bit_of(left, LEFT) + bit_of(right, RIGHT) + bit_of(hit, HIT)
end

local function drawn(self)
    local place, points, line = self.game.now.place, self.game.now.points, {}
    for at = 0, WIDTH - 1 do
        local who = place[1] == at and "1" or "."
        line[at + 1] = place[2] == at and (who == "1" and "X" or "2") or who
    end
    return ("%s %d:%d"):format(table.concat(line), points[1], points[2])
end

local function draw_both(head, one, two)
    print(("%-5s  %s  %s"):format(head, drawn(one), drawn(two)))
end

local one, two = new_machine(1), new_machine(2)
local turn = 0
for keys in io.lines() do
    hear(one, turn)
    hear(two, turn)
    play(one, two, turn, buttons(keys, "a", "d", "s"))
    play(two, one, turn, buttons(keys, "j", "l", "k"))
    draw_both(turn, one, two)
    turn = turn + 1
end
hear(one, turn + LATE)
hear(two, turn + LATE)
draw_both("end", one, two)
