-- What a turn costs in LuaJIT: luajit bench/lua_frames.lua, after `make bench`, with LUA_PATH and FAZGROND_LIBRARY as
-- tests/bindings/lua/test has them. The games are those of bench/c_frames.c: a frame is all calls and requests of a turn, and each line is
-- the least of nine runs. The last one is two machines with peers beside their sessions: a turn of one is all its calls, with a
-- datagram that comes and one that goes.
local ffi = require "ffi"
local fazgrond = require "fazgrond"

local FRAMES, RUNS = 20000, 9

ffi.cdef [[
struct fazgrond_bench_time { long seconds, nanoseconds; };
int clock_gettime(int clock, struct fazgrond_bench_time *time);
]]
local time = ffi.new "struct fazgrond_bench_time"

local function now()
    ffi.C.clock_gettime(1, time)
    return tonumber(time.seconds) * 1e9 + tonumber(time.nanoseconds)
end

local Game = {}
Game.__index = Game

function Game:save()
    return self.state
end

function Game:load(state)
    self.state = state
end

function Game:advance(words)
    self.state = (10 * self.state + words[1] + 2 * words[2]) % 1000000
    self.steps = self.steps + 1
end

local function new_game()
    return setmetatable({ state = 0, steps = 0 }, Game)
end

-- A match of which player 2's words come so many frames late.
local function play(session, late, changes)
    for frame = 0, FRAMES - 1 do
        if frame >= late then
            assert(session:remote_input(2, frame - late, changes and frame - late or 0))
            if late > 0 then
                assert(session:synchronize_input())
            end
        end
        assert(session:add_local_input(1, frame))
        assert(session:advance_frame())
    end
end

local function measure(what, late, changes)
    local least, game = math.huge, nil
    for _ = 1, RUNS do
        game = new_game()
        local session = assert(fazgrond.session({ players = 2, locals = { 1 } }, game))
        local from = now()
        play(session, late, changes)
        least = math.min(least, (now() - from) / FRAMES)
        session:close()
    end
    print(("%-38s %7.0f ns a frame, %4.2f steps"):format(what, least, game.steps / FRAMES))
end

local function new_machine(me)
    local game = new_game()
    local session = assert(fazgrond.session({ players = 2, locals = { me + 1 } }, game))
    local match = { me = me, machines = 2, owners = { 0, 1 }, number = 7, draw = me + 1, silent_after = 5000, notify_after = 0 }
    return { me = me, game = game, session = session, peer = assert(fazgrond.peer(session, match)) }
end

local function take_turn(self, other, turn)
    local at = turn * 16
    if self.bytes then
        self.peer:receive(self.bytes, at) -- a first play can't be opened yet
    end
    assert(self.peer:poll(at))
    if self.peer:is_running() then
        self.session:turn(turn)
    end
    other.bytes = assert(self.peer:send(other.me, at))
end

local function measure_peers()
    local least, one = math.huge, nil
    for _ = 1, RUNS do
        one = new_machine(0)
        local two = new_machine(1)
        local from = now()
        for turn = 0, FRAMES - 1 do
            take_turn(one, two, turn)
            take_turn(two, one, turn)
        end
        least = math.min(least, (now() - from) / FRAMES / 2)
    end
    print(("%-38s %7.0f ns a turn, %4.2f steps, %.2f frames"):format("two peers, a turn of one", least, one.game.steps / FRAMES,
        one.session:frame() / FRAMES))
end

measure("each word in time, no rollback", 0, true)
measure("each word 6 frames late, as predicted", 6, false)
measure("each word 6 frames late, another one", 6, true)
measure("each word 2 frames late, another one", 2, true)
measure_peers()
