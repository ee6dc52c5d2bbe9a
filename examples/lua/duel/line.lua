-- The way to the other machines, over a UDP socket. It can be made worse: what is sent comes late, and is lost at times.
local socket = require "socket"

local MOST_AT_ONCE = 256 -- datagrams that are taken in one go
local Line = {}
Line.__index = Line

-- Opens the port. `machines` has the number of each address.
function Line.open(port, machines, lag, loss)
    local udp = assert(socket.udp())
    assert(udp:setsockname("*", port))
    udp:settimeout(0)
    local line = setmetatable({ udp = udp, machines = machines, to = {}, lag = lag, loss = loss, under_way = {} }, Line)
    for address, machine in pairs(machines) do
        local host, its_port = address:match "^(.*):(%d+)$"
        line.to[machine] = { host = host, port = tonumber(its_port) }
    end
    return line
end

function Line:send_now(machine, bytes)
    local to = self.to[machine]
    self.udp:sendto(bytes, to.host, to.port) -- what can't be sent is lost, as it may be anyway
end

function Line:send(machine, bytes, now)
    if math.random() * 100 < self.loss then
        return
    end
    if self.lag == 0 then
        self:send_now(machine, bytes)
    else
        table.insert(self.under_way, { due = now + self.lag, machine = machine, bytes = bytes })
    end
end

-- Sends what was to come late.
function Line:deliver(now)
    while self.under_way[1] and self.under_way[1].due <= now do
        local one = table.remove(self.under_way, 1)
        self:send_now(one.machine, one.bytes)
    end
end

-- Gives each datagram that came of a machine to a function.
function Line:hear(take)
    for _ = 1, MOST_AT_ONCE do
        local bytes, host, port = self.udp:receivefrom()
        if not bytes and host == "timeout" then
            return
        end
        if bytes and self.machines[host .. ":" .. port] then
            take(bytes)
        end
    end
end

function Line:close()
    self.udp:close()
end

return Line
