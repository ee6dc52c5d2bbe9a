-- The command line of the duel, as out/duel has it.
local fazgrond = require "fazgrond"
local options = {}

options.usage = [=[
love examples/lua/duel [OPTIONS] PORT PLAYER PLAYER [PLAYER [PLAYER]]    a duel of ships for two to four
  PLAYER        local, or the address of a machine, as 10.0.0.7:7001; the same order at all machines
  --bot SEED    plays by itself (SEED is 1 or more)
  --headless    no window; ships stay where they are without --bot
  --frames N    ends once frame N is settled, and prints its state
  --delay N     local inputs count N frames later (1)
  --timeout MS  a machine that is silent so long is gone, and if one hasn't come by then, the match is over (5000)
  --match N     the number that the machines of this match know
  --lag MS --loss PERCENT    makes the line worse for what this machine sends
  --speed N     a clock that runs N times as fast
]=]

local NUMBERS = { bot = 0, frames = 0, delay = 1, timeout = fazgrond.numbers.SILENT_AFTER, match = 0, lag = 0, loss = 0, speed = 1 }

local function whole_number(word)
    return word and word:match "^%d+$" and tonumber(word)
end

-- The options before the port, and the place of the port.
local function read_options(words, found)
    local at = 1
    while words[at] and words[at]:sub(1, 2) == "--" do
        local name = words[at]:sub(3)
        if name == "headless" then
            found.is_headless = true
        elseif NUMBERS[name] and whole_number(words[at + 1]) then
            at = at + 1
            found[name] = whole_number(words[at])
        else
            return nil, words[at] .. " can't be read"
        end
        at = at + 1
    end
    return at
end

-- Which machine each player is of: each address is one, and this machine is another, in the order of their first players.
local function place_players(players)
    local machines, owners, count = {}, {}, 0
    for number, word in ipairs(players) do
        if not machines[word] then
            machines[word] = count
            count = count + 1
        end
        owners[number] = machines[word]
    end
    return machines, owners, count
end

local function read_players(words, at, found)
    found.players, found.locals = {}, {}
    for place = at, #words do
        if words[place] ~= "local" and not words[place]:match "^[%d.]+:%d+$" then
            return nil, words[place] .. " is neither `local` nor an address"
        end
        table.insert(found.players, words[place])
        if words[place] == "local" then
            table.insert(found.locals, #found.players)
        end
    end
    if #found.players < 2 or #found.players > 4 or #found.locals == 0 or #found.locals == #found.players then
        return nil, "two to four players were expected, of whom some are local"
    end
    found.machines, found.owners, found.count = place_players(found.players)
    return found
end

-- What the words of a command line say; or nil, and what is wrong with them.
function options.read(words)
    local found = {}
    for name, number in pairs(NUMBERS) do
        found[name] = number
    end
    local at, why = read_options(words, found)
    if not at then
        return nil, why
    end
    found.port = whole_number(words[at])
    if not found.port or found.port > 65535 or found.speed == 0 then
        return nil, "the port or the speed can't be read"
    end
    return read_players(words, at + 1, found)
end

return options
