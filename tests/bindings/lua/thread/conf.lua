function love.conf(t)
    for _, name in ipairs { "window", "graphics", "font", "image", "keyboard", "mouse", "touch", "audio", "sound" } do
        t.modules[name] = false
    end
end
