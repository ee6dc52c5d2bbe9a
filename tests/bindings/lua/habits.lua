-- The habits answer what tests/c/habits.c compares with guesses that were worked out elsewhere.
local fazgrond = require "fazgrond"

local function is(found, wanted)
    if found ~= wanted then
        error(("%s, and not %s"):format(tostring(found), tostring(wanted)), 2)
    end
end

is(select(2, fazgrond.habits({ 1, 3 })), "invalid_request")
local habits = assert(fazgrond.habits({ 1, 2, 4, 8, 16 }))
local held = { 6, 10, 14, 9, 22 }
for frame = 0, 119 do
    local word = 0
    for at, frames in ipairs(held) do
        word = word + math.floor(frame / frames) % 2 * 2 ^ (at - 1)
    end
    is(habits:note(word), true)
end
local best = habits:guesses(4)
is(#best, 32)
is(#habits:guesses(4, 1), 1)
is(#habits:guesses(0), 0)
is(best[1].words[1], 26)
is(best[2].worth, 4311)
is(table.concat(best[2].words, " "), "27 26")
is(#assert(fazgrond.habits()):guesses(4), 0) -- nothing was seen yet
is(assert(fazgrond.habits({}, { 5 })):guesses(1)[1].words[1], 5)
