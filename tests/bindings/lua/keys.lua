-- Plays the game of docs/LUA.md in LÖVE, with keys that are held by the clock, and prints the settled rows of the first 300
-- frames. It fails if the squares aren't where these bring them.
local beside = io.open(love.filesystem.getSourceBaseDirectory() .. "/libfazgrond.so")
if beside then -- (a .love file has the library beside it)
    require("fazgrond").load(love.filesystem.getSourceBaseDirectory() .. "/libfazgrond.so")
end
require "game"
local are_right = require "squares"
local begin, update, fazgrond = love.load, love.update, require "fazgrond"
local FRAMES, PAST_LAST, KEYS = 300, 60, { "right", "down", "left", "up" }
local me, session, told

function love.load(words)
    local open = fazgrond.session
    me = tonumber(words[1])
    function fazgrond.session(settings, game)
        session = open(settings, game)
        told = 0
        return session
    end
    begin(words)
end

function love.keyboard.isDown(key)
    return KEYS[math.floor(love.timer.getTime() * (3 + me)) % 4 + 1] == key
end

function love.update(...)
    update(...)
    local settled = session:settled()
    while told < math.min(settled, FRAMES) do
        local words = session:settled_row(told)
        print(("frame %d words %d %d"):format(told, words[1], words[2]))
        told = told + 1
    end
    if settled >= FRAMES + PAST_LAST then
        print("the squares are right after " .. are_right(session) .. " rows")
        love.event.quit()
    end
end
