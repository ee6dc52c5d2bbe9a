-- The duel in a window.
local rules = require "rules"

local COLOURS = { { 0.47, 0.78, 1 }, { 1, 0.59, 0.35 }, { 0.59, 0.9, 0.47 }, { 0.94, 0.86, 0.35 } }
local UNIT = rules.WIDTH / 640

-- A ship is a triangle, whose nose is where it heads; that of this machine is filled.
local function draw_ship(ship, is_mine)
    local direction = rules.DIRECTIONS[ship.heading]
    local x, y, right, down = ship.x / UNIT, ship.y / UNIT, direction[1], direction[2]
    local tail_x, tail_y = x - right * 0.75, y - down * 0.75
    love.graphics.polygon(is_mine and "fill" or "line", x + right, y + down, tail_x - down / 2, tail_y + right / 2,
        tail_x + down / 2, tail_y - right / 2)
end

-- Draws a state. `is_mine` has the numbers of the ships of this machine; `lines` stand below.
return function(field, is_mine, lines)
    love.graphics.clear(0.05, 0.06, 0.1)
    for at = 0, field.ships - 1 do
        local ship = field.ship[at]
        love.graphics.setColor(COLOURS[at + 1])
        draw_ship(ship, is_mine[at + 1])
        love.graphics.print(("ship %d hit %d"):format(at + 1, ship.hits), 8 + at * 160, 8)
    end
    for at = 0, field.bullets - 1 do
        local shot = field.bullet[at]
        love.graphics.setColor(COLOURS[shot.owner])
        love.graphics.rectangle("fill", shot.x / UNIT - 1, shot.y / UNIT - 1, 3, 3)
    end
    love.graphics.setColor(0.67, 0.7, 0.78)
    for at, line in ipairs(lines) do
        love.graphics.print(line, 8, 480 - 16 * (#lines - at + 1) - 6)
    end
end
