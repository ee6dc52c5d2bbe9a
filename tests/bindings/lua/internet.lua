-- Two machines with a line in one process, by faz_line.lua. It prints nothing if all is right.
local ffi = require "ffi"
local faz_line = require "faz_line"

ffi.cdef [[
struct line_time { long seconds, nanos; };
int clock_gettime(int clock, struct line_time *out);
int nanosleep(const struct line_time *time, struct line_time *rest);
]]
local time = ffi.new "struct line_time"

local function millis()
    ffi.C.clock_gettime(1, time)
    return tonumber(time.seconds) * 1000 + math.floor(tonumber(time.nanos) / 1000000)
end

local COUNT = 50
local keys = { faz_line.draw(), faz_line.draw() }
assert(#keys[1].open == 32 and keys[1].open ~= keys[2].open)

local line, why = faz_line.open { me = 1, other = 1, keys = keys[1], their = keys[2].open }
assert(line == nil and why == "the two are not two machines of a match", why)
line, why = faz_line.open { me = 0, other = 1, keys = keys[1], their = keys[2].open, relays = { {}, {}, {}, {}, {}, {}, {}, {}, {} } }
assert(line == nil and why == "there are too many relays", why)
local relay = { address = "127.0.0.1", port = 3478, user = "user", password = ("x"):rep(300) }
line, why = faz_line.open { me = 0, other = 1, keys = keys[1], their = keys[2].open, relays = { relay } }
assert(line == nil and why:find "too long", why)

local lines = {
    assert(faz_line.open { me = 0, other = 1, keys = keys[1], their = keys[2].open }),
    assert(faz_line.open { me = 1, other = 0, keys = keys[2], their = keys[1].open }),
}
assert(lines[1]:number() == lines[2]:number() and lines[1]:number() ~= 0)
assert(not lines[1]:relays { relay } and lines[1]:relays {})
assert(not lines[1]:signalled "abc" and not lines[1]:send "abc" and lines[1]:receive() == nil)

local function datagram(number)
    return string.char(number) .. ("x"):rep(number * 23)
end

local came, sent = { 0, 0 }, 0
for _ = 1, 20000 do
    for at, one in ipairs(lines) do
        one:turn(millis())
        for signal in one.signal, one do
            assert(lines[3 - at]:signalled(signal))
        end
        for bytes in one.receive, one do
            assert(bytes == datagram(came[at]), at)
            came[at] = came[at] + 1
        end
    end
    if lines[1]:look().stage == "up" and lines[2]:look().stage == "up" and sent < COUNT then
        assert(lines[1]:send(datagram(sent)) and lines[2]:send(datagram(sent)))
        sent = sent + 1
    end
    if came[1] == COUNT and came[2] == COUNT then
        break
    end
    time.seconds, time.nanos = 0, 1000000
    ffi.C.nanosleep(time, nil)
end
local seen = lines[1]:look()
assert(came[1] == COUNT and came[2] == COUNT and seen.way == "lan" and seen.received == COUNT and seen.forged == 1, came[1])
lines[1]:close()
lines[2]:close()
