local function is_headless()
    for _, word in ipairs(arg) do
        if word == "--headless" then
            return true
        end
    end
    return false
end

function love.conf(t)
    local has_window = not is_headless()
    t.identity = "fazgrond-duel"
    t.window.title = "Duel"
    t.window.width, t.window.height = 640, 480
    for _, name in ipairs { "window", "graphics", "font", "image", "keyboard", "mouse", "touch" } do
        t.modules[name] = has_window
    end
    for _, name in ipairs { "audio", "joystick", "physics", "sound", "thread", "video" } do
        t.modules[name] = false
    end
end
