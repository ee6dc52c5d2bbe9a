-- What nobody has any more is closed, and gives its memory back. finalizers.lua TIMES
local ffi = require "ffi"
local gc, closed = ffi.gc, 0

function ffi.gc(handle, finalizer) -- as it was, and counts
    return gc(handle, finalizer and function(it)
        closed = closed + 1
        finalizer(it)
    end)
end

local fazgrond = require "fazgrond"
local Sum = require "sum"
ffi.cdef "struct heap { size_t all[10]; }; struct heap mallinfo2(void);"

-- How many bytes are taken of the system's heap, where the library has what is open.
local function taken()
    return tonumber(ffi.C.mallinfo2().all[7])
end

-- One of each kind; two of them are closed by the program. All others are left alone.
local function open_all()
    local session = assert(fazgrond.session({ players = 2, locals = { 1 } }, Sum.new(31, 1000003)))
    assert(session:turn(1))
    local match = { me = 0, machines = 2, owners = { 0, 1 }, number = 7, draw = 1 }
    local line = { number = 7, draw = 1, host = 0, machines = 2, owners = { 0, 1 } }
    assert(fazgrond.peer(session, match))
    assert(fazgrond.line(session, line))
    local viewer = assert(fazgrond.viewer(line))
    assert(fazgrond.habits({ 1, 2 }))
    local giver = assert(fazgrond.giver(1, 0, ("x"):rep(5000)))
    assert(fazgrond.taker(giver:name(), 5000))
    viewer:close()
    viewer:close()
    giver:close()
end

local function collect()
    collectgarbage()
    collectgarbage()
end

local function open_many(times)
    closed = 0
    for at = 1, times do
        open_all()
        if at % 50 == 0 then
            collect()
        end
    end
    assert(closed >= 5 * (times - 50), "they are closed only at the end")
    collect()
    assert(closed == 5 * times, closed .. " were closed")
end

open_many(100)
local before = taken()
open_many(tonumber(arg[1]))
assert(taken() < before + 65536, ("%d bytes are still taken, and there were %d"):format(taken(), before))
