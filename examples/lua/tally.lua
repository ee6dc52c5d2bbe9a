-- Tally, a game of one number, and a word of player 2 that comes late. It says each thing that the session has it do.
local fazgrond = require "fazgrond"
local Sum = require "sum"

local game = Sum.new(10, 1000000)

local function say(...)
    print(string.format(...))
end

function game:save(slot)
    if slot > 0 then -- the opening is saved in slot 0
        say("  save slot %d", slot)
    end
    return self.state
end

function game:load(state, slot)
    self.state = state
    say("  load slot %d: state %d", slot, state)
end

function game:free(_, slot)
    say("  free slot %d", slot)
end

function game:advance(words, gone)
    Sum.advance(self, words, gone)
    say("  step %d %d: state %d", words[1], words[2], self.state)
end

local session = assert(fazgrond.session({ players = 2, locals = { 1 } }, game))

for _ = 1, 2 do
    assert(session:add_local_input(1, 1))
    local frame, from, rerun = assert(session:advance_frame())
    say("frame %d from %d rerun %d state %d", frame, from, rerun, game.state)
end
say("player 2 gave 3 in frame 0")
assert(session:remote_input(2, 0, 3))
assert(session:synchronize_input())
say("settled %d state %d", session:settled(), game.state)
session:close()
