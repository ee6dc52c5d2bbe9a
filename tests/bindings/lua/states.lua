-- A state goes over in pieces, of which every third datagram is lost. tests/c/states.c has what each call answers.
local fazgrond = require "fazgrond"

local NUMBER, GIVER, TAKER = 0x1122334455667788ULL, 0, 1

local function is(found, wanted)
    if found ~= wanted then
        error(("%s, and not %s"):format(tostring(found), tostring(wanted)), 2)
    end
end

local function state_of(length)
    local bytes = {}
    for at = 0, length - 1 do
        bytes[at + 1] = string.char(math.floor(at * at / 128) % 256)
    end
    return table.concat(bytes)
end

local whole = state_of(100000)
is(select(2, fazgrond.giver(1, 0, "")), "invalid_request")
local giver = assert(fazgrond.giver(1, 7, whole))
local name = assert(giver:name())
is(name.which, 1ULL)
is(name.frame, 7)
is(name.length, 100000)
is(giver:bytes(), whole)
is(select(2, fazgrond.taker(name, 99999)), "too_long")

local taker = assert(fazgrond.taker(name, 100000))
is(select(2, taker:look()), 98)
is(taker:name().digest, name.digest)
is(select(2, taker:take_of(8)), "invalid_machine")
is(taker:takes_of(GIVER), true)
is(select(2, taker:takes_of(8)), "invalid_machine")

local sent, came = 0, {}
while select(2, taker:look()) > 0 do
    is(select(2, taker:bytes()), "nothing")
    local ask = assert(taker:send(NUMBER, TAKER, 5))
    is(fazgrond.state_sender(ask), TAKER)
    local place, piece = 0, giver:reply(NUMBER, GIVER, ask, 0)
    while piece do
        sent = sent + 1
        for _ = 1, sent % 3 == 0 and 0 or 2 do -- each that isn't lost comes twice
            came[assert(taker:receive(NUMBER, piece))] = true
        end
        place = place + 1
        piece = giver:reply(NUMBER, GIVER, ask, place)
    end
end
is(came.piece_again and came.piece_taken and came.state_whole, true)
is(select(2, taker:send(NUMBER, TAKER, 4)), "nothing")
is(taker:bytes(), whole)

-- Who gives a wrong state is named, and what a state is called can be asked for.
local right = assert(fazgrond.giver(1, 0, "right"))
local wrong = assert(fazgrond.giver(1, 0, "wrong"))
local told = wrong:name()
told.digest = right:name().digest
local fooled = assert(fazgrond.taker(right:name(), 5))
local first = assert(fazgrond.state_ask(NUMBER, TAKER, 1, 0))
local piece = assert(right:reply(NUMBER, GIVER, first, 0))
is(fazgrond.state_told(NUMBER, piece).digest, right:name().digest)
is(select(2, fazgrond.state_told(NUMBER + 1, piece)), "not_sealed")
is(select(2, fooled:receive(NUMBER, wrong:reply(NUMBER, GIVER, first, 0))), "other_state")
is(fooled:take_of(TAKER), true)
is(fooled:takes_of(GIVER), false)
is(select(2, fooled:receive(NUMBER, piece)), "not_now")
is(fooled:take_of(), true)
is(fooled:receive(NUMBER, piece), "state_whole")
is(fazgrond.state_digest(right:name(), 1) == fazgrond.state_digest(wrong:name(), 1), false)
is(select(2, fazgrond.state_sender("no datagram")), "nothing")
for _, call in ipairs {
    function() right:reply(NUMBER, 257, first, 0) end,
    function() fooled:send(NUMBER, 257, 1) end,
    function() fooled:takes_of(257) end,
    function() fooled:take_of(257) end,
    function() fazgrond.state_ask(NUMBER, 257, 1, 0) end,
} do
    is(select(2, pcall(call)):match "257 is no number" ~= nil, true)
end
is(select(2, pcall(fazgrond.taker, { which = 1, frame = 0, length = 5, digest = "short" }, 5)):match "32 bytes", "32 bytes")
