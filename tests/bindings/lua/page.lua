-- Plays the game of docs/LUA.md twice in this process, in place of LÖVE and its sockets: two players hold keys, on lines that
-- lose a fifth and bring the others late, and both come to what the words of their rows come to. page.lua FILE
local are_right = require "squares"

local TURNS, LOST, LATE = 900, 0.2, 5
local clock, inbox = 5000, { {}, {} }
math.randomseed(1)

-- What player 1, or 2, holds down: it goes round, and now and then stands.
local ROUND = { { "right", "down", "left", "up" }, { "up", "right", "down", "left" } }

local function is_down(player, key)
    local at = math.floor(clock * 60 / (7 + 4 * player))
    return at % 5 ~= 4 and ROUND[player][at % 4 + 1] == key
end

-- A socket of a machine: what it sends comes to the other one some turns later.
local function new_socket(player)
    local udp = {}

    function udp:settimeout() end

    function udp:setsockname() return 1 end

    function udp:setpeername() return 1 end

    function udp:send(bytes)
        if math.random() >= LOST then
            table.insert(inbox[3 - player], { due = clock + math.random(LATE) / 60, bytes = bytes })
        end
    end

    function udp:receive()
        for at, datagram in ipairs(inbox[player]) do
            if datagram.due <= clock then
                return table.remove(inbox[player], at).bytes
            end
        end
        return nil, "timeout"
    end

    return udp
end

-- The value of a local variable that a function, or one that it uses, has.
local function local_of(call, name, seen)
    seen = seen or {}
    seen[call] = true
    for at = 1, debug.getinfo(call, "u").nups do
        local its_name, value = debug.getupvalue(call, at)
        if its_name == name then
            return value
        elseif type(value) == "function" and not seen[value] and debug.getinfo(value, "S").what == "Lua" then
            value = local_of(value, name, seen)
            if value then
                return value
            end
        end
    end
end

local function begin(player)
    local love = {
        keyboard = { isDown = function(key) return is_down(player, key) end },
        timer = { getTime = function() return clock end },
    }
    package.loaded.socket = { udp = function() return new_socket(player) end }
    local program = assert(loadfile(arg[1]))
    setfenv(program, setmetatable({ love = love, print = function() end }, { __index = _G }))
    program()
    love.load { tostring(player - 1), "7000", "127.0.0.1", "7001" }
    local session = local_of(love.update, "session")
    return { love = love, session = session, game = session.game, steps = 0 }
end

-- Counts the frames that are played.
local function count_steps(machine)
    local advance = machine.game.advance
    function machine.game.advance(...)
        machine.steps = machine.steps + 1
        return advance(...)
    end
end

local both = { begin(1), begin(2) }
for _, machine in ipairs(both) do
    count_steps(machine)
end
for _ = 1, TURNS do
    clock = clock + 1 / 60
    for _, machine in ipairs(both) do
        machine.love.update(1 / 60)
    end
end
for _, machine in ipairs(both) do
    assert(are_right(machine.session) > TURNS - 100, "it stood")
    assert(machine.steps > machine.session:frame() + 50, "next to nothing was played again")
end
local common = math.min(both[1].session:settled(), both[2].session:settled())
for frame = 0, common - 1 do
    assert(table.concat(both[1].session:settled_row(frame), " ") == table.concat(both[2].session:settled_row(frame), " "))
end
