-- Ways between the machines of a match in one process. One datagram in four is lost, and the others come one to four turns later.
local bit = require "bit"
local UNDER_WAY = 64
local Ways = {}
Ways.__index = Ways

-- The way to each machine, from 0 to this one.
function Ways.new(last)
    local ways = setmetatable({ seed = 1 }, Ways)
    for to = 0, last do
        ways[to] = {}
    end
    return ways
end

function Ways:send(to, from, turn, bytes)
    self.seed = (self.seed * 1664525 + 1013904223) % 4294967296
    if self.seed < 2 ^ 30 or #self[to] == UNDER_WAY then
        return
    end
    local late = bit.band(bit.rshift(self.seed, 16), 3)
    table.insert(self[to], { due = turn + 1 + late, from = from, bytes = bytes })
end

-- Takes the datagram at a place of a way; the last one takes its place.
local function taken(way, at)
    local found, last = way[at], table.remove(way)
    if at <= #way then
        way[at] = last
    end
    return found
end

-- What is due, first to last, as two_peers.c takes it.
function Ways:due(to, turn)
    local way, found, at = self[to], {}, 1
    while at <= #way do
        if way[at].due <= turn then
            table.insert(found, taken(way, at))
        else
            at = at + 1
        end
    end
    return found
end

-- What is due, last to first, as watch.c takes it.
function Ways:due_backwards(to, turn)
    local way, found = self[to], {}
    for at = #way, 1, -1 do
        if way[at].due <= turn then
            table.insert(found, taken(way, at))
        end
    end
    return found
end

return Ways
