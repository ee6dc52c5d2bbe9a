-- A match of the duel at one machine: without a socket, a window or a clock of its own.
local bit = require "bit"
local fazgrond = require "fazgrond"
local rules = require "rules"

local PAST_LAST = 32 -- frames after the last one, so that the others have all of it too
local BYES = 3
local OVER = { desync = true, mismatch = true, dropped = true, missing = true }

local function hash_of(words)
    local hash = 0xcbf29ce484222325ULL
    for letter in words:gmatch "." do
        hash = bit.bxor(hash, letter:byte()) * 0x100000001b3ULL
    end
    return hash
end

-- What all machines of a match have alike, as lib/ggponet has it: so this game and the program out/duel can play together.
local function digest_of(players)
    return hash_of(("duel ggponet 1 players %d input 4"):format(players))
end

-- The number of a match of which nothing is said, as lib/ggponet has it.
local function number_of_none()
    return bit.bor(hash_of "duel ggponet 1 match", 1ULL)
end

-- The game, as a session plays it. Its state knows its frame, and the state at the frame `last` is noted.
local Game = {}
Game.__index = Game

local function new_game(players, last)
    return setmetatable({ frame = 0, field = rules.opening(players), last = last, again = -1 }, Game)
end

local function note(game)
    if game.frame == game.last then
        game.at_last = rules.text(game.field)
    end
end

function Game:save()
    return { frame = self.frame, field = rules.copy(self.field) }
end

function Game:load(state)
    self.frame, self.field = state.frame, rules.copy(state.field)
    note(self)
end

function Game:advance(words)
    rules.step(self.field, words)
    self.frame = self.frame + 1
    note(self)
end

function Game:digest(state)
    return rules.checksum(state.field)
end

local Match = {}
Match.__index = Match

-- Opens a match by what the command line says (options.lua). `line` sends a datagram to a machine: line:send(machine, bytes,
-- now). `word_of` says what the local player of a place, from 1 on, holds down; `told` is given what happens.
function Match.new(options, line, word_of, told)
    local me, players = options.machines["local"], #options.players
    local game, delays = new_game(players, options.frames), {}
    for _, player in ipairs(options.locals) do
        delays[player] = options.delay
    end
    local session, why = fazgrond.session({ players = players, locals = options.locals, delays = delays }, game)
    if not session then
        return nil, why
    end
    local digest = digest_of(players)
    local peer
    peer, why = fazgrond.peer(session, {
        me = me, machines = options.count, owners = options.owners, digest = digest,
        number = options.match > 0 and options.match or number_of_none(), silent_after = options.timeout,
        carries = true, opening = rules.checksum(game.field),
    })
    if not peer then
        return nil, why
    end
    return setmetatable({
        game = game, session = session, peer = peer, me = me, machines = options.count, line = line, word_of = word_of,
        told = told, locals = options.locals, frames = options.frames, wait = 0, again = 0, all_again = 0,
    }, Match)
end

function Match:receive(bytes, now)
    self.peer:receive(bytes, now) -- what is refused has changed nothing
end

-- A frame, unless this machine is to wait or is too far ahead.
function Match:play()
    local words
    if self.wait > 0 then
        self.wait = self.wait - 1
    else
        words = {}
        for place in ipairs(self.locals) do
            words[place] = self.word_of(place)
        end
    end
    local frame, _, rerun = self.session:turn(words)
    self.again = frame and rerun - 1 or 0
    self.all_again = self.all_again + self.again
    return frame
end

function Match:react(event)
    if event.name == "time_sync" then
        self.wait = event.frames_ahead
    elseif OVER[event.name] then
        self.is_over = true
        self.has_desync = self.has_desync or event.name == "desync"
    end
    self.told(event)
end

-- A turn, 60 times a second, and whether it played a frame. `now` is in milliseconds.
function Match:turn(now)
    assert(self.peer:poll(now))
    local frame = self.peer:is_running() and self:play()
    assert(self.peer:note_settled())
    for event in self.peer:events() do
        self:react(event)
    end
    for machine = 0, self.machines - 1 do
        local bytes = machine ~= self.me and self.peer:send(machine, now)
        if bytes then
            self.line:send(machine, bytes, now)
        end
    end
    for machine, bytes in self.peer.send_more, self.peer do
        self.line:send(machine, bytes, now)
    end
    return frame
end

-- Whether the last frame is settled, here and elsewhere: who sent words of a much later frame has all of this one.
function Match:is_done()
    return self.frames > 0 and self.session:settled() >= self.frames + PAST_LAST
end

-- Says goodbye, and closes the match.
function Match:close()
    local why = self.has_desync and fazgrond.numbers.BYE_DESYNC or fazgrond.numbers.BYE_LEAVES
    for machine = 0, self.machines - 1 do
        local bytes = self.peer:bye(machine, why)
        for _ = 1, bytes and BYES or 0 do
            self.line:send_now(machine, bytes)
        end
    end
    for machine, bytes in self.peer.send_more, self.peer do
        self.line:send_now(machine, bytes)
    end
    self.peer:close()
    self.session:close()
end

return Match
