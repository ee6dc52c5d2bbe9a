-- faz_line.lua: a line between two machines over the internet or a LAN, for games in LuaJIT and LÖVE, over libfaz_line.so.
-- docs/ONLINE.md says what a line is, and include/faz_line.h what each call does. Keys, signals and datagrams are strings.
local ffi = require "ffi"
require(((...) or ""):gsub("faz_line$", "") .. "faz_line_cdef")

local STAGES = { [0] = "looking", "up", "silent", "blocked" }
local WAYS = { [0] = "no_way", "lan", "direct", "relayed" }
local ROOM = 1200 -- bytes of a datagram

local faz_line, line = {}, {}
line.__index = line
local lib
local size = ffi.new "size_t[1]"
local why = ffi.new "const char *[1]"
local bytes_out = ffi.new("uint8_t[?]", ROOM)
local state_out = ffi.new "faz_line_state"

-- Loads the library: from this file, else from the one that the variable FAZ_LINE_LIBRARY of the environment names, else from
-- where the system has libraries. Without this call that happens once keys are drawn.
function faz_line.load(path)
    lib = lib or ffi.load(path or os.getenv "FAZ_LINE_LIBRARY" or "faz_line")
    return faz_line
end

-- Keys for one line: `open` is for the other machine.
function faz_line.draw()
    faz_line.load()
    local keys = ffi.new "faz_line_keys"
    assert(lib.faz_line_draw(keys), "the system gives no random numbers")
    return { drawn = keys, open = ffi.string(keys.open, 32) }
end

-- Relays as the library takes them. The list has to stay while it does.
local function relays_of(list)
    local made = ffi.new("faz_line_relay[?]", math.max(#list, 1))
    for at, relay in ipairs(list) do
        local to = made[at - 1]
        to.address, to.port, to.user, to.password, to.by_tcp = relay.address, relay.port, relay.user, relay.password, relay.by_tcp or false
    end
    return made
end

-- Opens a line by these settings: me, other, keys (which were drawn for it), their (the other machine's open key), and if there are
-- any stun, stun_port, relays (a list, each with address, port, user, password and by_tcp), relay_only and any_sender. Or nil, and
-- why not.
function faz_line.open(settings)
    faz_line.load()
    local relays = settings.relays or {}
    if #relays > ffi.C.FAZ_LINE_RELAYS then
        return nil, "there are too many relays"
    end
    local made = ffi.new "faz_line_settings"
    made.me, made.other, made.keys, made.their = settings.me, settings.other, settings.keys.drawn, settings.their
    made.stun, made.stun_port = settings.stun, settings.stun_port or 0
    ffi.copy(made.relays, relays_of(relays), #relays * ffi.sizeof "faz_line_relay")
    made.relay_count = #relays
    made.relay_only, made.any_sender = settings.relay_only or false, settings.any_sender or false
    local at = lib.faz_line_open(made, why)
    if at == nil then
        return nil, ffi.string(why[0])
    end
    return setmetatable({ at = ffi.gc(at, lib.faz_line_close) }, line)
end

-- Once a turn, with the time in milliseconds.
function line:turn(now)
    lib.faz_line_turn(self.at, now % 2 ^ 32)
end

function line:relays(list)
    return lib.faz_line_relays(self.at, relays_of(list), #list)
end

local function told(has)
    return has and ffi.string(bytes_out, size[0]) or nil
end

-- The next signal to carry to the other machine; nil if there is none.
function line:signal()
    return told(lib.faz_line_signal(self.at, bytes_out, ROOM, size))
end

function line:signalled(bytes)
    return lib.faz_line_signalled(self.at, bytes, #bytes)
end

function line:send(bytes)
    return lib.faz_line_send(self.at, bytes, #bytes)
end

-- The next datagram that came; nil if there is none.
function line:receive()
    return told(lib.faz_line_receive(self.at, bytes_out, ROOM, size))
end

-- How it stands: `stage` and `way` in words, and what was counted.
function line:look()
    lib.faz_line_look(self.at, state_out)
    local seen = { stage = STAGES[tonumber(state_out.stage)], way = WAYS[tonumber(state_out.way)] }
    for _, name in ipairs { "generation", "silence", "sent", "received", "forged", "again", "misnamed", "dropped" } do
        seen[name] = tonumber(state_out[name])
    end
    return seen
end

-- The number that only the two machines know, of 64 bits: for `numbers` of a match.
function line:number()
    return lib.faz_line_number(self.at)
end

-- Closes it. No call may follow.
function line:close()
    lib.faz_line_close(ffi.gc(self.at, nil))
    self.at = nil
end

return faz_line
