-- Words are held back as tests/c/held.c tries it: a word waits, a guess with it is run, and once it is handed over, no frame is run
-- again.
local fazgrond = require "fazgrond"
local Sum = require "sum"

local function is(found, wanted)
    if found ~= wanted then
        error(("%s, and not %s"):format(tostring(found), tostring(wanted)), 2)
    end
end

local function new_machine(me, held_turns)
    local game = Sum.new(31, 1000003)
    local session = assert(fazgrond.session({ players = 2, locals = { me + 1 } }, game))
    local peer, why = fazgrond.peer(session, {
        me = me, machines = 2, number = 7, owners = { 0, 1 }, draw = 70 + me, silent_after = 0, held_turns = held_turns,
    })
    return peer and { me = me, game = game, session = session, peer = peer }, why
end

-- What one sends, the other hears; it may be sealed with what the other doesn't know yet.
local function pass(from, to)
    to.peer:receive(assert(from.peer:send(to.me, 0)), 0)
end

-- A local word, and the next frame: how many frames were run.
local function give(machine, word)
    local _, _, rerun = assert(machine.session:turn(word))
    return rerun
end

is(select(2, new_machine(0, 9)), "invalid_request")
local one, two = new_machine(0, 0), new_machine(1, 2)
for _ = 1, 8 do
    pass(one, two)
    pass(two, one)
    assert(one.peer:poll(0) and two.peer:poll(0))
end
is(one.peer:is_running() and two.peer:is_running(), true)
is(give(one, 7), 1)
is(give(two, 5), 1)
is(give(two, 5), 1)

pass(one, two)
local waiting = two.peer:waiting()
is(#waiting, 1)
is(waiting[1].kind .. waiting[1].player .. waiting[1].frame .. waiting[1].word, "remote107")
is(two.session:confirmed(1), 0)
is(two.peer:rerun(1), 2)
is(select(2, two.peer:rerun(0)), "invalid_request")
is(two.peer:is_pressed(), false)
is(one.peer:stats(1).words_queued, 1)
pass(two, one)
is(one.peer:stats(1).words_queued, 0) -- it is acknowledged

local job = assert(two.peer:guess(2))
local helper = Sum.new(31, 1000003)
job:run(helper)
is(helper.steps, 2)
is(two.session:graft(job), 2)
is(two.peer:rerun(1), 0)
is(select(2, two.peer:guess(2)), "nothing")
is(two.peer:hand_over_due(), 0)
is(two.peer:hand_over(), true)
is(#two.peer:waiting(), 0)
is(two.session:confirmed(1), 1)
is(give(two, 5), 1)
is(two.game.steps, 3)
is(two.peer:hand_over_due(), 0)
is(select(2, two.peer:guess(2)), "invalid_request")

-- One that nobody hands over is, after its turns.
one, two = new_machine(0, 0), new_machine(1, 3)
for _ = 1, 8 do
    pass(one, two)
    pass(two, one)
    assert(one.peer:poll(0) and two.peer:poll(0))
end
give(one, 7)
give(two, 5)
pass(one, two)
for _, handed in ipairs { 0, 0, 1, 0 } do
    is(two.peer:hand_over_due(), handed)
end
is(two.session:confirmed_word(1, 0), 7)
