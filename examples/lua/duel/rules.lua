-- A duel of two to four ships: the rules alone. They are those of the game `duel` of the program rollduel (docs/SCRIPTS.md), and
-- its states lie in memory as those of programs/duel/duel.h.
local bit = require "bit"
local ffi = require "ffi"

local rules = {
    SHIPS = 4,
    BULLETS = 32,
    -- The field, in 1/256 of a unit. It wraps.
    WIDTH = 81920,
    HEIGHT = 61440,
    -- What a player holds down: the bits of a word.
    THRUST = 1,
    LEFT = 2,
    RIGHT = 4,
    FIRE = 8,
    -- What a heading, from 0, adds to a speed, to the right and downwards.
    DIRECTIONS = {
        [0] = { 16, 0 }, { 11, 11 }, { 0, 16 }, { -11, 11 }, { -16, 0 }, { -11, -11 }, { 0, -16 }, { 11, -11 },
    },
}

local HEADINGS, MOST_SPEED, SHOT_SPEED, SHOT_LIFE, COOL, REACH, MOST_HITS = 8, 512, 32, 60, 8, 2048, 65535
local PLACES = { { 20480, 15360, 0 }, { 61440, 46080, 4 }, { 61440, 15360, 4 }, { 20480, 46080, 0 } }
local WIDTH, HEIGHT, DIRECTIONS = rules.WIDTH, rules.HEIGHT, rules.DIRECTIONS

local field_type = ffi.typeof [[struct {
    uint32_t ships, bullets;
    struct { int32_t x, y, vx, vy; uint32_t heading, cool, hits; } ship[4];
    struct { uint32_t owner, life; int32_t x, y, vx, vy; } bullet[32];
}]]
local SIZE = ffi.sizeof(field_type)
local SHOT_SIZE = ffi.sizeof(field_type().bullet[0])

-- The opening, with 2 to 4 ships.
function rules.opening(ships)
    if not (ships >= 2 and ships <= rules.SHIPS) then
        error(("%s ships: 2 to 4 were expected"):format(ships))
    end
    local field = field_type()
    field.ships = ships
    for at = 0, ships - 1 do
        field.ship[at].x, field.ship[at].y, field.ship[at].heading = unpack(PLACES[at + 1])
    end
    return field
end

function rules.copy(field)
    return field_type(field)
end

-- The place after a frame at this speed, on a field of this size.
local function moved(size, place, speed)
    return (place + speed) % size
end

local function held(speed)
    return math.min(math.max(speed, -MOST_SPEED), MOST_SPEED)
end

local function fire(field, number, ship)
    local direction, shot = DIRECTIONS[ship.heading], field.bullet[field.bullets]
    field.bullets = field.bullets + 1
    shot.owner, shot.life, shot.x, shot.y = number, SHOT_LIFE, ship.x, ship.y
    shot.vx, shot.vy = ship.vx + SHOT_SPEED * direction[1], ship.vy + SHOT_SPEED * direction[2]
end

local function has(word, button)
    return bit.band(word, button) ~= 0
end

-- A ship turns, thrusts, cools its gun, fires and moves.
local function run_ship(field, number, word)
    local ship = field.ship[number - 1]
    if has(word, rules.LEFT) ~= has(word, rules.RIGHT) then
        ship.heading = (ship.heading + (has(word, rules.LEFT) and HEADINGS - 1 or 1)) % HEADINGS
    end
    if has(word, rules.THRUST) then
        local direction = DIRECTIONS[ship.heading]
        ship.vx, ship.vy = held(ship.vx + direction[1]), held(ship.vy + direction[2])
    end
    if ship.cool > 0 then
        ship.cool = ship.cool - 1
    end
    if has(word, rules.FIRE) and ship.cool == 0 and field.bullets < rules.BULLETS then
        fire(field, number, ship)
        ship.cool = COOL
    end
    ship.x, ship.y = moved(WIDTH, ship.x, ship.vx), moved(HEIGHT, ship.y, ship.vy)
end

-- The way between two places, round the field if that is shorter.
local function distance(size, one, other)
    local gap = math.abs(one - other)
    return math.min(gap, size - gap)
end

-- Counts a hit for the first ship that a bullet hits, and says whether there is one.
local function strike(field, shot)
    for at = 0, field.ships - 1 do
        local ship = field.ship[at]
        if at + 1 ~= shot.owner and distance(WIDTH, ship.x, shot.x) <= REACH and distance(HEIGHT, ship.y, shot.y) <= REACH then
            ship.hits = math.min(ship.hits + 1, MOST_HITS)
            return true
        end
    end
    return false
end

-- A frame, with a word for each ship.
function rules.step(field, words)
    for number = 1, field.ships do
        run_ship(field, number, words[number])
    end
    local kept = 0
    for at = 0, field.bullets - 1 do
        local shot = field.bullet[at]
        shot.x, shot.y, shot.life = moved(WIDTH, shot.x, shot.vx), moved(HEIGHT, shot.y, shot.vy), shot.life - 1
        if not strike(field, shot) and shot.life > 0 then
            field.bullet[kept] = shot
            kept = kept + 1
        end
    end
    -- What is past the last bullet is always 0, so that equal states have equal bytes.
    ffi.fill(field.bullet + kept, (field.bullets - kept) * SHOT_SIZE)
    field.bullets = kept
end

-- A number that is another for most other states: that of duel_checksum in programs/duel/duel.c.
function rules.checksum(field)
    local bytes, sum = ffi.cast("const uint8_t *", field), bit.tobit(0x811c9dc5)
    for at = 0, SIZE - 1 do
        sum = bit.bxor(sum, bytes[at])
        sum = bit.tobit(sum * 0x193 + bit.lshift(sum, 24)) -- 0x01000193 times it
    end
    return sum % 4294967296
end

-- The state as text, as rollduel writes it.
function rules.text(field)
    local parts = {}
    for at = 0, field.ships - 1 do
        local ship = field.ship[at]
        parts[at + 1] = ("%d,%d,%d,%d,%d,%d,%d "):format(ship.x, ship.y, ship.vx, ship.vy, ship.heading, ship.cool, ship.hits)
    end
    return table.concat(parts) .. "b" .. field.bullets
end

-- ---- A bot, which flies a ship: it always gives the same words, that of programs/common/bot.h.

local Bot = {}
Bot.__index = Bot

function rules.bot(seed, player)
    return setmetatable({ seed = 0x9e3779b97f4a7c15ULL * (seed * rules.SHIPS + player), word = 0 }, Bot)
end

-- Draws the next word, after one was taken.
function Bot:draw()
    local seed = self.seed
    seed = bit.bxor(seed, bit.lshift(seed, 13))
    seed = bit.bxor(seed, bit.rshift(seed, 7))
    seed = bit.bxor(seed, bit.lshift(seed, 17))
    self.seed = seed
    if bit.band(bit.rshift(seed, 32), 7) == 0 then
        self.word = tonumber(bit.band(bit.rshift(seed, 40), 15))
    end
end

return rules
