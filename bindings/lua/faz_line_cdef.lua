-- What include/faz_line.h declares, for LuaJIT. It is written by bindings/declare-line.
local ffi = require "ffi"

if not pcall(ffi.typeof, "faz_line_keys") then -- (this may be loaded more than once)
    ffi.cdef [[
typedef struct faz_line faz_line;
enum { FAZ_LINE_KEY = 32, FAZ_LINE_SIGNAL = 1024, FAZ_LINE_RELAYS = 8 };
typedef struct faz_line_keys { uint8_t open[FAZ_LINE_KEY]; uint8_t secret[FAZ_LINE_KEY]; } faz_line_keys;
typedef struct faz_line_relay { const char *address; uint16_t port; const char *user, *password; bool by_tcp; } faz_line_relay;
typedef struct faz_line_settings { uint32_t me, other; faz_line_keys *keys; const uint8_t *their; const char *stun; uint16_t
    stun_port; faz_line_relay relays[FAZ_LINE_RELAYS]; uint32_t relay_count; bool relay_only; bool any_sender; }
    faz_line_settings;
typedef enum faz_line_way { FAZ_LINE_NO_WAY, FAZ_LINE_LAN, FAZ_LINE_DIRECT, FAZ_LINE_RELAYED } faz_line_way;
typedef enum faz_line_stage { FAZ_LINE_LOOKING, FAZ_LINE_UP, FAZ_LINE_SILENT, FAZ_LINE_BLOCKED } faz_line_stage;
typedef struct faz_line_state { faz_line_stage stage; faz_line_way way; uint32_t generation; uint32_t silence; uint64_t sent,
    received; uint64_t forged; uint64_t again; uint64_t misnamed; uint64_t dropped; } faz_line_state;
bool faz_line_draw(faz_line_keys *keys);
faz_line *faz_line_open(const faz_line_settings *settings, const char **why);
void faz_line_close(faz_line *line);
void faz_line_turn(faz_line *line, uint32_t now);
bool faz_line_relays(faz_line *line, const faz_line_relay *relays, uint32_t count);
bool faz_line_signal(faz_line *line, uint8_t *out, size_t room, size_t *length);
bool faz_line_signalled(faz_line *line, const uint8_t *bytes, size_t length);
bool faz_line_send(faz_line *line, const uint8_t *bytes, size_t length);
bool faz_line_receive(faz_line *line, uint8_t *out, size_t room, size_t *length);
void faz_line_look(const faz_line *line, faz_line_state *state);
uint64_t faz_line_number(const faz_line *line);
]]
end
