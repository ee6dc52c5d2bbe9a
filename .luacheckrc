std = "luajit"
max_line_length = 140
-- 212: a method takes `self` whether it needs it or not. 4..: a name may be taken once more where the first isn't needed any longer.
ignore = { "212/self", "4.." }
globals = { "love" }
-- They set what a script finds: its words, and what it prints with.
files["tests/bindings/lua/calls.lua"].globals = { "arg", "print" }
