-- A match of the duel in LÖVE: love examples/lua/duel. `usage` in options.lua says how it is begun.
-- (Beside the game, in a clone, are the classes and the library; a game that is given away has them in its own folder.)
local folder = love.filesystem.getSource()
package.path = folder .. "/../../../bindings/lua/?.lua;" .. package.path
local fazgrond = require "fazgrond"
local draw = require "draw"
local Line = require "line"
local Match = require "match"
local options = require "options"
local rules = require "rules"

local TURN = 1000 / 60
local MOST_LATE = 20 -- turns that are made up for
local KEYS = { { "up", "left", "right", "space" }, { "w", "a", "d", "f" } }

local told, is_mine, bots = {}, {}, {}
local asked, line, match, due

local function now()
    return love.timer.getTime() * 1000 * asked.speed
end

-- Loads the library from where `make libraries` leaves it, unless FAZGROND_LIBRARY says another place.
local function load_library()
    local built = folder .. "/../../../out/libfazgrond.so"
    local file = not os.getenv "FAZGROND_LIBRARY" and io.open(built)
    fazgrond.load(file and built or nil)
    if file then
        file:close()
    end
end

-- What a local player holds down.
local function word_of(place)
    if bots[place] then
        return bots[place].word
    end
    local word = 0
    for at, key in ipairs(not asked.is_headless and KEYS[place] or {}) do
        word = word + (love.keyboard.isDown(key) and 2 ^ (at - 1) or 0)
    end
    return word
end

local SAID = {
    synchronizing = ": there", synchronized = ": ready", left = " has left", interrupted = " is silent",
    resumed = " is heard again", restarted = " was begun anew", stalled = " holds up the match", refused = " sends what is refused",
}

local function say(event)
    if event.name == "running" then
        told = {}
        io.stderr:write "the match begins\n"
    elseif SAID[event.name] then
        told[event.machine] = ("machine %d%s"):format(event.machine, SAID[event.name])
        io.stderr:write(asked.is_headless and told[event.machine] .. "\n" or "")
    elseif event.name ~= "time_sync" and event.name ~= "disconnected" then
        io.stderr:write("the match is over: " .. fazgrond.text(event.code) .. "\n")
    end
end

local function begin()
    load_library()
    line = Line.open(asked.port, asked.machines, asked.lag, asked.loss)
    match = assert(Match.new(asked, line, word_of, say))
    for place, player in ipairs(asked.locals) do
        bots[place] = asked.bot > 0 and rules.bot(asked.bot, player) or nil
        is_mine[player] = true
    end
    if not asked.is_headless then -- windows stand side by side, so that one screen can have a match
        love.window.setPosition(20 + (asked.locals[1] - 1) % 2 * 660, 40 + math.floor((asked.locals[1] - 1) / 2) * 520)
    end
    due = now()
end

function love.load(words)
    local why
    asked, why = options.read(words)
    if asked then
        begin()
    else
        io.stderr:write("duel: ", why, "\n", options.usage)
        love.event.quit(2)
    end
end

local function turn()
    if match:turn(now()) then
        for _, bot in ipairs(bots) do
            bot:draw()
        end
    end
    if match.is_over or match:is_done() then
        love.event.quit(match.is_over and 1 or 0)
        return false
    end
    return true
end

function love.update()
    if not match then
        return
    end
    line:hear(function(bytes)
        match:receive(bytes, now())
    end)
    due = math.max(due, now() - MOST_LATE * TURN)
    while due <= now() and turn() do
        due = due + TURN
    end
    line:deliver(now())
end

function love.draw()
    if not match then
        return
    end
    local lines = {}
    for machine = 0, asked.count - 1 do
        local stats = machine ~= match.me and match.peer:stats(machine)
        if told[machine] then
            table.insert(lines, told[machine])
        elseif stats and stats.round_trip then
            table.insert(lines, ("to machine %d: ping %d ms, ahead %d"):format(machine, stats.round_trip, -stats.frames_behind))
        end
    end
    table.insert(lines, ("frame %d, again %d, in all %d"):format(match.game.frame, match.again, match.all_again))
    draw(match.game.field, is_mine, lines)
end

function love.keypressed(key)
    if key == "escape" then
        love.event.quit()
    end
end

function love.quit()
    if not match then
        return
    end
    if match.game.at_last then
        print(("frame %d state %s"):format(asked.frames, match.game.at_last))
        io.stdout:flush()
    end
    io.stderr:write(("played %d frames, and %d again\n"):format(match.game.frame, match.all_again))
    match:close()
    line:close()
    match = nil
end
