-- Whether the game of docs/LUA.md is where the words of its rows bring it.

-- Where both squares are after so many settled rows, and for how many rows each player held keys.
local function places_by_rows(session, rows)
    local places, held = { { 80, 120 }, { 240, 120 } }, { 0, 0 }
    for frame = 0, rows - 1 do
        local words = assert(session:settled_row(frame))
        for player, place in ipairs(places) do
            local bits = {}
            for at = 0, 3 do
                bits[at] = math.floor(words[player] / 2 ^ at) % 2
            end
            place[1] = (place[1] + 2 * (bits[1] - bits[0])) % 320
            place[2] = (place[2] + 2 * (bits[3] - bits[2])) % 240
            held[player] = held[player] + (words[player] > 0 and 1 or 0)
        end
    end
    return places, held
end

-- An error if it isn't, or if a player held no keys for half of the match. Answers how many rows are settled.
return function(session)
    local rows, state = assert(session:settled_state())
    local due, held = places_by_rows(session, rows)
    for player = 1, 2 do
        assert(state[player][1] == due[player][1] and state[player][2] == due[player][2], "another state")
        assert(held[player] > rows / 2, "no keys were held")
    end
    return rows
end
