-- A guess that comes true: the frames that player 2's words would make are run before they come. Here that is done at once; a
-- game has another thread do it.
local fazgrond = require "fazgrond"
local Sum = require "sum"

-- Three frames of player 1, and then player 2's word 3 in each of them: what a rollback costs, guessed or not.
local function play(is_guessed)
    local game, job = Sum.new(10, 1000000), nil
    local session = assert(fazgrond.session({ players = 2, locals = { 1 } }, game))
    assert(session:limit_slots(64))
    assert(session:turn(1))
    assert(session:turn(1))
    if is_guessed then
        job = assert(session:guess(2, { 3 }, 3))
    end
    assert(session:turn(1)) -- the game goes on meanwhile
    if is_guessed then
        job:run(Sum.new(10, 1000000))
        print(("job %d: %d states"):format(job.number, assert(session:graft(job))))
    end
    for frame = 0, 2 do
        assert(session:remote_input(2, frame, 3))
    end
    game.steps = 0
    assert(session:synchronize_input())
    print(("%s: %d frames run again, state %d"):format(is_guessed and "guessed" or "not guessed", game.steps, game.state))
    session:close()
end

play(false)
play(true)
