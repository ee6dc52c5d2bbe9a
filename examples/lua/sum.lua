-- The game of the examples: a number, which is taken so many times, and of each player the number times the word is added, or 5
-- if the player has left.
local bit = require "bit"
local Sum = {}
Sum.__index = Sum

function Sum.new(times, most)
    return setmetatable({ times = times, most = most, state = 0, steps = 0 }, Sum)
end

function Sum:save()
    return self.state
end

function Sum:load(state)
    self.state = state
end

function Sum:advance(words, gone)
    local sum = self.times * self.state
    for player, word in ipairs(words) do
        sum = sum + (bit.band(bit.rshift(gone, player - 1), 1) == 1 and 5 or player * word)
    end
    self.state = sum % self.most
    self.steps = self.steps + 1
end

function Sum:digest(state)
    return state
end

return Sum
