-- What is refused, by which name; and what is an error, in which words.
local bit = require "bit"
local fazgrond = require "fazgrond"
local Sum = require "sum"

local function is(found, wanted)
    if found ~= wanted then
        error(("%s, and not %s"):format(tostring(found), tostring(wanted)), 2)
    end
end

-- Whether a call was refused by a name, and its number.
local function refused(name, answer, found, code)
    is(answer, nil)
    is(found, name)
    is(code, fazgrond.numbers[name:upper()])
end

-- Whether a call fails in these words.
local function fails(words, call, ...)
    local went, said = pcall(call, ...)
    if went or not said:find(words, 1, true) then
        error(("`%s` was expected, and it said: %s"):format(words, tostring(said)), 2)
    end
end

local function new_session(settings)
    local told = { players = 2, locals = { 1 } }
    for name, value in pairs(settings or {}) do
        told[name] = value
    end
    return fazgrond.session(told, Sum.new(10, 1000000))
end

local MATCH = { me = 0, machines = 2, owners = { 0, 1 }, number = 7, draw = 1 }
local LINE = { number = 7, draw = 1, host = 0, machines = 2, owners = { 0, 1 } }

local function with(given, name, value)
    local told = {}
    for one, of in pairs(given) do
        told[one] = of
    end
    told[name] = value
    return told
end

-- What can't be opened.
refused("player_out_of_range", new_session { players = 9, profile = "wide" })
refused("player_out_of_range", new_session { players = 5, profile = "ggpo" })
refused("invalid_request", new_session { threshold = 9 })
refused("invalid_request", new_session { locals = {} })
fails("settings have no `treshold`", new_session, { treshold = 8 })
fails("settings: a table was expected", fazgrond.session, 2, Sum.new(10, 10))
fails("the game has no function `advance`", fazgrond.session, { players = 2 }, { save = print, load = print })
fails("a profile is `ggpo` or `wide`", new_session, { profile = "large" })
fails("there is no player 9", new_session, { locals = { 9 } })
fails("there is no player 0", new_session, { locals = { 0 } })
local session = assert(new_session())
refused("invalid_request", fazgrond.peer(session, with(MATCH, "draw", 0)))
refused("invalid_machine", fazgrond.peer(session, with(MATCH, "me", 2)))
refused("invalid_player", fazgrond.peer(session, with(MATCH, "me", 1)))
refused("invalid_player", fazgrond.peer(session, with(MATCH, "owners", { 0, 1, 1 })))
fails("matches have no `silence`", fazgrond.peer, session, with(MATCH, "silence", 5))
refused("invalid_machine", fazgrond.line(session, with(LINE, "host", 2)))
refused("invalid_request", fazgrond.viewer(with(LINE, "draw", 0)))
fails("lines have no `me`", fazgrond.viewer, with(LINE, "me", 0))
fails("lines have no `me`", fazgrond.line, session, with(LINE, "me", 0))
fails("the library is loaded already", fazgrond.load, "elsewhere.so")
is(fazgrond.load(), fazgrond)

-- What can't be taken is an error by its name.
local function opens(name, value)
    return function()
        return fazgrond.peer(session, with(MATCH, name, value))
    end
end

fails("settings have no `local`, but players, locals", new_session, { ["local"] = { 1 } })
fails("settings need `players`", fazgrond.session, { locals = { 1 } }, Sum.new(10, 10))
fails("settings need `locals`", fazgrond.session, { players = 2 }, Sum.new(10, 10))
fails("`players` is 1.5", new_session, { players = 1.5 })
fails("there is no player 1.5", new_session, { locals = { 1.5 } })
fails("`threshold` is -1", new_session, { threshold = -1 })
fails("`limit` is 4294967296", new_session, { limit = 2 ^ 32 })
fails("`delays[1]` is 0.5", new_session, { delays = { 0.5 } })
fails("there is no player 9", new_session, { delays = { [9] = 1 } })
fails("`masks[2]` is 4294967296", new_session, { masks = { 0, 2 ^ 32 } })
for _, name in ipairs { "me", "machines", "owners", "number" } do
    fails(("matches need `%s`"):format(name), fazgrond.peer, session, with(MATCH, name, nil))
end
fails("matches need `numbers[1]`", fazgrond.peer, session, with(with(MATCH, "number", nil), "numbers", { [0] = 7 }))
fails("`number` is 1.5", opens("number", 1.5))
fails("`number` is -7", opens("number", -7))
fails("`number` is 1.3117684672949e+18", opens("number", 0x1234567890abcdef)) -- (without ULL it is no such number)
fails("`number` is -7LL", opens("number", -7LL))
fails("`comers` is -1", opens("comers", -1))
fails("`name` is 4294967296", fazgrond.ticket, 5, 4294967296)
fails("`numbers[1]` is seven", opens("numbers", { [1] = "seven" }))
fails("`owners[2]` is -1", opens("owners", { 0, -1 }))
fails("`words` is 1.5", opens("words", 1.5))
fails("`silent_after` is 4294967296", opens("silent_after", 2 ^ 32))
fails("`draw` is -1", opens("draw", -1))
fails("epochs need `threshold`", fazgrond.peer, session, MATCH, { owners = { 0, 1 } })
fails("`base` is -1", fazgrond.peer, session, MATCH, { owners = { 0, 1 }, threshold = 8, base = -1 })
fails("lines need `number`", fazgrond.viewer, with(LINE, "number", nil))
fails("`host` is 0.5", fazgrond.viewer, with(LINE, "host", 0.5))
fails("`parts[1]` is 0.5", fazgrond.habits, { 0.5 })
fails("`bytes` is nil", fazgrond.giver, 1, 0, nil)
fails("`which` is -1", fazgrond.giver, -1, 0, "state")
fails("`word` is 4294967296", session.add_local_input, session, 1, 2 ^ 32)
fails("`word` is -2147483649", session.add_local_input, session, 1, -2 ^ 31 - 1)
fails("`word` is nil", session.add_local_input, session, 1)
fails("1.5 is no number of a player", session.add_local_input, session, 1.5, 0)
fails("`words[1]` is nil", session.turn, session, {})
fails("`words` is 1.5", session.turn, session, 1.5)
fails("`words[2]` is 0.5", session.guess, session, 2, { 1, 0.5 }, 1)
fails("`last` is -1", session.guess, session, 2, { 1 }, -1)
fails("`frame` is 0.5", session.settled_row, session, 0.5)
fails("`here` is 2147483648", session.note_advantages, session, 2 ^ 31, 0)
local beside = assert(fazgrond.peer(session, MATCH))
fails("`now` is nil", beside.poll, beside)
fails("`now` is nan", beside.poll, beside, 0 / 0)
fails("`bytes` is 7", beside.receive, beside, 7, 0)
fails("`count` is 0.5", beside.hand_over, beside, 0.5)
fails("`digest` is 0.5", beside.note_settled, beside, 0.5)
is(beside:note_settled(bit.bnot(0)), true) -- (which is below 0)
fails("there is no player 9", beside.mark, beside, 1, { comes = { 9 } })
is(session:log_length(), 0)

-- What a session refuses.
refused("no_plan", session:claim())
refused("local_input_missing", session:advance_frame())
refused("local_input_missing", session:turn(nil))
is(session:add_local_input(1, 5), true)
refused("input_twice", session:add_local_input(1, 6))
refused("invalid_player", session:add_local_input(2, 5))
refused("invalid_player", session:add_local_input(0, 5))
fails("-1 is no number of a player", session.add_local_input, session, -1, 5)
for _, name in ipairs { "add_local_input", "remote_input", "disconnect_player", "confirmed", "confirmed_word", "input_frame" } do
    fails("257 is no number of a player", session[name], session, 257, 0, 0) -- (of whose bits a byte takes 1)
end
fails("257 is no number of a player", session.guess, session, 257, { 1 }, 1)
for _ = 1, 8 do
    assert(session:turn(5))
end
refused("prediction_threshold", session:turn(5))
refused("gap", session:remote_input(2, 3, 1))
local is_taken, is_repeated = session:remote_input(2, 0, -1)
is(is_taken, true)
is(is_repeated, false)
is(select(2, session:remote_input(2, 0, 0xffffffff)), true)
refused("conflict", session:remote_input(2, 0, 3))
is(session:confirmed_word(2, 0), 0xffffffff) -- as a number without a sign
refused("nothing", session:confirmed_word(2, 1))
refused("nothing", session:settled_row(1))
is(session:has_news(), true)
local words, gone = assert(session:synchronize_input())
is(table.concat(words, " "), "5 4294967295") -- (the first of them was given in the frame that was refused)
is(gone, 0)
is(session:has_news(), false)
is(session:claim():match "^rollcert", "rollcert")
is(table.concat(session:settled_row(0), " "), "5 4294967295")
is(select("#", session:settled_state()), 3)
is(session:input_frame(1), 8)
refused("nothing", session:input_frame(2))
is(session:disconnect_player(2), true)
refused("player_disconnected", session:remote_input(2, 1, 0))
assert(session:synchronize_input())
is(select(2, session:settled_row(5)), 2) -- the bit of player 2, who has left

-- The log has all that was accepted, and a new session comes to the same by it.
local first, last = session:log_entry(1), session:log_entry(session:log_length() - 1)
is(first.kind .. first.player .. first.word, "local15")
is(last.kind, "sync")
refused("nothing", session:log_entry(session:log_length()))
local again = assert(new_session())
local replay = {
    ["local"] = function(it) return again:add_local_input(it.player, it.word) end,
    remote = function(it) return again:remote_input(it.player, it.frame, it.word) end,
    disconnect = function(it) return again:disconnect_player(it.player) end,
    sync = function() return again:synchronize_input() end,
    advance = function() return again:advance_frame() end,
}
for place = 0, session:log_length() - 1 do
    local entry = session:log_entry(place)
    assert(replay[entry.kind](entry))
end
is(again.game.state, session.game.state)
is(again.game.frame, session.game.frame)

-- Jobs, slots, and who is ahead.
local guessing = assert(new_session())
assert(guessing:turn(1))
fails("the job wasn't run", guessing.graft, guessing, assert(guessing:guess(2, { 9 }, 1)))
refused("invalid_request", guessing:guess(2, {}, 1))
refused("invalid_request", guessing:guess(2, { 9 }, 30))
local job = assert(guessing:guess(2, { 8 }, 1))
is(guessing:forget(job), true)
refused("no_job", guessing:forget(job))
assert(guessing:turn(1))
local jobs = { assert(guessing:guess(2, { 3 }, 2)), assert(guessing:guess(2, { 3 }, 2)) }
for _, one in ipairs(jobs) do
    one:run(Sum.new(10, 1000000))
end
assert(guessing:remote_input(2, 0, 5))
is(guessing:graft(jobs[1]), 0)
assert(guessing:synchronize_input())
refused("dead", guessing:graft(jobs[2]))

-- A guess from a state that isn't the opening comes to what is played without it.
local function play(is_guessed)
    local it = assert(new_session())
    for frame = 0, 3 do
        assert(it:turn(2))
        assert(it:remote_input(2, frame, 3))
    end
    assert(it:turn(2))
    assert(it:turn(2))
    if is_guessed then
        local guess = assert(it:guess(2, { 7 }, 6))
        guess:run(Sum.new(10, 1000000))
        is(it:graft(guess), 2)
    end
    assert(it:remote_input(2, 4, 7))
    assert(it:remote_input(2, 5, 7))
    it.game.steps = 0
    assert(it:synchronize_input())
    return it.game.state, it.game.steps
end

is(play(true), (play(false)))
is(select(2, play(true)), 0)
is(select(2, play(false)), 2)

-- A claim that is longer than a datagram.
local many = assert(new_session { players = 8 })
for _ = 1, 15 do
    assert(many:turn(1))
end
is(#many:claim() > 1200, true)
is(many:claim():match "^rollcert.*%d\n$" ~= nil, true)

-- Each state that was saved is freed once, but for those that are still there: also of jobs, whatever came of them.
local function are_freed(session, saved)
    local there, freed = {}, session.game.freed
    for _, state in pairs(session.states) do
        there[state] = true
    end
    for number = 1, saved do
        is((freed[number] or 0) + (there[number] and 1 or 0), 1)
    end
end

local function counting_game(shared)
    local game = { freed = shared.freed }
    function game:save()
        shared.saved = shared.saved + 1
        return shared.saved
    end
    function game:free(state)
        self.freed[state] = (self.freed[state] or 0) + 1
    end
    function game:load() end
    function game:advance() end
    return game
end

local shared = { saved = 0, freed = {} }
local counting = assert(fazgrond.session({ players = 2, locals = { 1 } }, counting_game(shared)))
for frame = 0, 59 do
    assert(counting:turn(1))
    if frame >= 4 then
        local first, second = counting:guess(2, { frame % 3 }, frame + 1), counting:guess(2, { frame % 5 }, frame)
        for _, one in ipairs { first or second, first and second } do
            one:run(counting_game(shared))
        end
        if first then
            counting:graft(first)
        end
        assert(counting:remote_input(2, frame - 4, frame % 4))
        if second and frame % 4 == 0 then
            assert(counting:forget(second))
        elseif second then
            counting:graft(second)
        end
    end
end
are_freed(counting, shared.saved)
is(shared.saved > 200, true)

is(guessing:reserve_log(100), true)
is(guessing:limit_slots(1), true)
refused("no_memory", guessing:turn(1))
for _ = 1, 40 do
    assert(guessing:note_advantages(-9, 9))
end
is(guessing:frames_ahead(), 9)

-- What a peer, a line and a viewer refuse.
session = assert(new_session())
local peer, line = assert(fazgrond.peer(session, MATCH)), assert(fazgrond.line(session, LINE))
local viewer = assert(fazgrond.viewer(LINE))
refused("not_sealed", peer:receive("no datagram", 0))
refused("not_sealed", line:receive("", 0))
refused("not_sealed", viewer:receive(("x"):rep(5000), 0))
refused("nothing", peer:send(0, 0))
refused("nothing", peer:bye(1))
refused("nothing", viewer:row())
refused("nothing", viewer:bye())
refused("nothing", line:bye())
refused("invalid_machine", peer:stats(2))
refused("own_machine", peer:disconnect(0))
for _, name in ipairs { "send", "bye", "disconnect", "stats" } do
    fails("257 is no number of a player or machine", peer[name], peer, 257, 0)
end
is(peer:disconnect(1), true)
is(peer:poll(2 ^ 33 + 5.5), true) -- (a clock that goes on for longer)
is(peer:note_settled(2 ^ 40), true)
is(peer:event().name, "left")
is(line:look(0).has_ended, true)
is(viewer:look(0).is_playing, false)
refused("invalid_machine", peer:receive(("x"):rep(60), 0))
local past = assert(fazgrond.peer(assert(new_session()), MATCH))
assert(past.session:remote_input(2, 0, 3)) -- which the peer alone may tell it
refused("other_session", past:poll(0))

-- A game whose function fails: its states aren't known any more.
local broken = assert(new_session())
broken.game.advance = function()
    error "the game has a fault"
end
assert(broken:add_local_input(1, 5))
fails("the game has a fault", broken.advance_frame, broken)
for _, name in ipairs { "advance_frame", "synchronize_input", "turn", "guess", "graft", "settled_state" } do
    fails("a function of the game has failed", broken[name], broken, 2, {}, 1)
end

-- All that is closed says so, whatever is asked of it.
local giver = assert(fazgrond.giver(1, 0, "state"))
local closing = { session, peer, line, viewer, assert(fazgrond.habits()), giver, assert(fazgrond.taker(giver:name(), 5)) }
for _, one in ipairs(closing) do
    one:close()
    one:close()
    for name, method in pairs(getmetatable(one)) do
        if type(method) == "function" and name ~= "close" and name ~= "events" and name ~= "rows" then
            local argument = (name == "receive" or name == "reply") and "bytes" or name == "graft" and job or 1
            fails("is closed", method, one, argument, name == "guess" and { 1 } or argument, "bytes", 1)
        end
    end
end
local lent = assert(fazgrond.peer(assert(new_session()), MATCH))
lent.session:close()
fails("the session is closed", lent.poll, lent, 0)
local told, gone = assert(fazgrond.line(assert(new_session()), LINE)), assert(fazgrond.peer(assert(new_session()), MATCH))
gone:close()
fails("the peer is closed", told.send_before, told, gone, 0)

-- Sentences, and the version.
is(fazgrond.version(), "0.3.0")
for code in pairs(fazgrond.answers) do
    is(#fazgrond.text(code) > 1, true)
end
for code in pairs(fazgrond.events) do
    is(#fazgrond.text(code) > 5, true)
end
is(fazgrond.text(7), nil)
is(fazgrond.random_number() == fazgrond.random_number(), false)
