-- On a thread, which has a Lua of its own: carries out a job of which it is given the state to begin with, and the steps.
local asked, done, path = ...
package.path = path
local Sum = require "sum"

local job, states = asked:demand(), {}
local game = Sum.new(10, 1000000)
game:load(job.from)
for at, step in ipairs(job.steps) do
    game:advance(step.words, step.gone)
    states[at] = game:save()
end
done:push(states)
