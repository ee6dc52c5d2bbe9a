-- The sync test: a game that comes out the same passes, and of others the first frame is found that doesn't.
local fazgrond = require "fazgrond"

local function is(found, wanted)
    if found ~= wanted then
        error(("%s, and not %s"):format(tostring(found), tostring(wanted)), 2)
    end
end

-- Two numbers of a list: to the first one the words are added, and the second one is the sum of all that the first one was.
local function new_game(more)
    local game = { list = { 0, 0 }, steps = 0, there = 0 }
    function game:save()
        self.there = self.there + 1
        return { unpack(self.list) }
    end
    function game:free()
        self.there = self.there - 1
    end
    function game:load(state)
        self.list = { unpack(state) }
    end
    function game:advance(words)
        self.steps = self.steps + 1
        self.list[1] = (self.list[1] + words[1] + 2 * words[2]) % 1009
        self.list[2] = (self.list[2] + self.list[1]) % 1013
    end
    function game:digest(state)
        return state[1] + 1013 * state[2]
    end
    for name, method in pairs(more or {}) do
        game[name] = method
    end
    return game
end

local lends = { save = function(self) return self.list end }
local borrows = { load = function(self, state) self.list = state end }
local plain = new_game().advance
local hides = {
    advance = function(self, words) -- a counter beside the state makes each hundredth step another one
        plain(self, words)
        self.list[1] = self.list[1] + (self.steps % 100 == 0 and 1 or 0)
    end,
}
local rows = {}
for frame = 0, 79 do
    table.insert(rows, { frame * 7 % 5, frame * 3 % 4 })
end

local right = new_game()
is(fazgrond.sync_test(right, rows), nil)
is(right.steps, 160)
is(right.there, 0)
is(fazgrond.sync_test(new_game(lends), rows), 0)
is(fazgrond.sync_test(new_game(borrows), rows), 0)
is(fazgrond.sync_test(new_game(hides), rows), 51) -- the fourth frame of the seventh eight, each of which is run twice
is(fazgrond.sync_test(new_game(hides), rows, 80), 19)

for words, call in pairs {
    ["games need `digest`"] = function() fazgrond.sync_test({ save = 1, load = 1, advance = 1 }, rows) end,
    ["`depth` is 0"] = function() fazgrond.sync_test(new_game(), rows, 0) end,
    ["`rows[1][2]` is 1.5"] = function() fazgrond.sync_test(new_game(), { { 1, 1.5 } }) end,
} do
    local went, said = pcall(call)
    is(not went and said:find(words, 1, true) ~= nil, true)
end
