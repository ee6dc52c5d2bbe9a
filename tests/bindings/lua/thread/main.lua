-- The example guess.lua in LÖVE: a thread runs the frames that player 2's words would make, while the game goes on.
local folder = love.filesystem.getSource() .. "/../../../../"
package.path = folder .. "bindings/lua/?.lua;" .. folder .. "examples/lua/?.lua;" .. package.path
local fazgrond = require "fazgrond"
local Sum = require "sum"

local function run_on_thread(job)
    local asked, done = love.thread.newChannel(), love.thread.newChannel()
    local thread = love.thread.newThread "helper.lua"
    thread:start(asked, done, package.path)
    asked:push { from = job.from, steps = job.steps }
    return thread, done
end

local function play(is_guessed)
    local game, job, thread, done = Sum.new(10, 1000000), nil, nil, nil
    local session = assert(fazgrond.session({ players = 2, locals = { 1 } }, game))
    assert(session:turn(1))
    assert(session:turn(1))
    if is_guessed then
        job = assert(session:guess(2, { 3 }, 3))
        thread, done = run_on_thread(job)
    end
    assert(session:turn(1)) -- the game goes on meanwhile
    if is_guessed then
        thread:wait()
        job.states = assert(done:pop(), thread:getError())
        print(("job %d: %d states"):format(job.number, assert(session:graft(job))))
    end
    for frame = 0, 2 do
        assert(session:remote_input(2, frame, 3))
    end
    game.steps = 0
    assert(session:synchronize_input())
    print(("%s: %d frames run again, state %d"):format(is_guessed and "guessed" or "not guessed", game.steps, game.state))
end

function love.load()
    play(false)
    play(true)
    love.event.quit()
end
