-- What the library is given, if nothing more is said, as tests/c/makers.c prints it: luajit tests/bindings/lua/makers.lua MAKERS.STDOUT
local fazgrond = require "fazgrond"
local lines = assert(io.open(arg[1])):lines()

-- The members of a struct that the next line names.
local function tell(made)
    local line = lines()
    local told = { line:match "^%w+" }
    for name in line:gmatch "([%a_]+) %d" do
        told[#told + 1] = name
        local value = made[name]
        for at = 0, type(value) == "cdata" and not tonumber(value) and 7 or 0 do
            told[#told + 1] = ("%.0f"):format(tonumber(value) or tonumber(value[at]))
        end
    end
    print(table.concat(told, " "))
end

-- In place of the library: what writes down what it is given.
local STRUCTS = { fazgrond_open = { 2 }, fazgrond_peer_open_lasting = { 3, 4 }, fazgrond_peer_mark = { 4 } }
local library = setmetatable({}, { __index = function(_, call)
    return function(...)
        for _, place in ipairs(STRUCTS[call] or {}) do
            tell((select(place, ...)))
        end
        return fazgrond.numbers.OK
    end
end })
for at = 1, 9 do
    if debug.getupvalue(fazgrond.version, at) == "lib" then
        debug.setupvalue(fazgrond.version, at, library)
    end
end

local game = { save = function() end, load = function() end, advance = function() end }
local two = { players = 2, locals = { 2 } }
local match = { me = 1, machines = 2, owners = { 0, 1 }, number = 7, draw = 5 }
local session = fazgrond.session(two, game)
fazgrond.session({ players = 5, locals = { 2, 5 } }, game)
fazgrond.peer(session, match, fazgrond.epoch(match, two)):mark(2)
