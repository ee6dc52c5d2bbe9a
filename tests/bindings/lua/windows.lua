-- A window answers what a list of all numbers that were taken answers.
local fazgrond = require "fazgrond"

local REACH = fazgrond.numbers.WINDOW_REACH
local window, taken, highest = fazgrond.window(), {}, 0

local function is_new(number)
    return not taken[number] and number + REACH >= highest
end

local function answers(number)
    local wanted = is_new(number)
    assert(window:is_new(number) == wanted, number)
    assert(window:note(number) == wanted, number)
    if wanted then
        taken[number] = true
        highest = math.max(highest, number)
    end
end

math.randomseed(1)
for _ = 1, 20000 do -- mostly near the highest, at times at the edge of reach or far ahead
    local kind = math.random(8)
    if kind == 1 then
        answers(math.max(0, highest - REACH + math.random(-2, 2)))
    elseif kind == 2 then
        answers(highest + math.random(3000))
    else
        answers(math.max(0, highest + math.random(-200, 3)))
    end
end
answers(0)
assert(not window:is_new(highest) and window:is_new(highest + 1))
