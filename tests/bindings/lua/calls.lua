-- Runs programs, and prints the calls of the library that they make, one a line. calls.lua FILE..
local ffi = require "ffi"
local load_library, said = ffi.load, print
local called = {}

function ffi.load(path) -- as it was, and notes what is taken of the library
    local library = load_library(path)
    return setmetatable({}, {
        __index = function(_, name)
            called[name] = true
            return library[name]
        end,
    })
end

function print() end

for _, file in ipairs { unpack(arg) } do
    arg = { [0] = file }
    dofile(file)
end
for name in pairs(called) do
    said(name)
end
