-- Plays a script of tests/programs/duel/test_rules.c by the rules in Lua: the state after each frame, one a line. rules.lua SCRIPT PLAYERS
local rules = require "rules"

local field, words = rules.opening(tonumber(arg[2])), { 0, 0, 0, 0 }

for line in io.lines(arg[1]) do
    local kind, player, first, second = line:match "^(%u) ?(%d*) ?(%d*) ?(%d*)$"
    if kind == "L" then
        words[tonumber(player)] = tonumber(first)
    elseif kind == "R" then
        words[tonumber(player)] = tonumber(second)
    elseif kind == "D" then
        words[tonumber(player)] = 0
    elseif kind == "A" then
        rules.step(field, words)
        assert(rules.checksum(rules.copy(field)) == rules.checksum(field))
        print(rules.text(field))
    end
end
