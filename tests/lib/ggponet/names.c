/* Whether ggponet.h has GGPO's names, types and numbers: this has to compile, as C and as C++, and links to nothing but it. */
#include <ggponet.h>
#include <stddef.h>
#include <string.h>

#ifdef __cplusplus
#define SAME(name, number) static_assert((name) == (number), #name)
#else
#define SAME(name, number) _Static_assert((name) == (number), #name)
#endif

SAME(GGPO_OK, 0);
SAME(GGPO_ERRORCODE_SUCCESS, 0);
SAME(GGPO_ERRORCODE_GENERAL_FAILURE, -1);
SAME(GGPO_ERRORCODE_INVALID_SESSION, 1);
SAME(GGPO_ERRORCODE_INVALID_PLAYER_HANDLE, 2);
SAME(GGPO_ERRORCODE_PLAYER_OUT_OF_RANGE, 3);
SAME(GGPO_ERRORCODE_PREDICTION_THRESHOLD, 4);
SAME(GGPO_ERRORCODE_UNSUPPORTED, 5);
SAME(GGPO_ERRORCODE_NOT_SYNCHRONIZED, 6);
SAME(GGPO_ERRORCODE_IN_ROLLBACK, 7);
SAME(GGPO_ERRORCODE_INPUT_DROPPED, 8);
SAME(GGPO_ERRORCODE_PLAYER_DISCONNECTED, 9);
SAME(GGPO_ERRORCODE_TOO_MANY_SPECTATORS, 10);
SAME(GGPO_ERRORCODE_INVALID_REQUEST, 11);
SAME(GGPO_EVENTCODE_CONNECTED_TO_PEER, 1000);
SAME(GGPO_EVENTCODE_SYNCHRONIZING_WITH_PEER, 1001);
SAME(GGPO_EVENTCODE_SYNCHRONIZED_WITH_PEER, 1002);
SAME(GGPO_EVENTCODE_RUNNING, 1003);
SAME(GGPO_EVENTCODE_DISCONNECTED_FROM_PEER, 1004);
SAME(GGPO_EVENTCODE_TIMESYNC, 1005);
SAME(GGPO_EVENTCODE_CONNECTION_INTERRUPTED, 1006);
SAME(GGPO_EVENTCODE_CONNECTION_RESUMED, 1007);
SAME(GGPO_PLAYERTYPE_LOCAL, 0);
SAME(GGPO_PLAYERTYPE_REMOTE, 1);
SAME(GGPO_PLAYERTYPE_SPECTATOR, 2);
SAME(GGPO_MAX_PLAYERS, 4);
SAME(GGPO_MAX_PREDICTION_FRAMES, 8);
SAME(GGPO_MAX_SPECTATORS, 32);
SAME(GGPO_INVALID_HANDLE, -1);

static int number;

static bool __cdecl on_begin(const char *game) { return game != NULL; }

static bool __cdecl on_save(unsigned char **buffer, int *len, int *checksum, int frame) {
    *buffer = (unsigned char *)&number;
    *len = (int)sizeof number;
    *checksum = frame;
    return true;
}

static bool __cdecl on_load(unsigned char *buffer, int len) {
    memcpy(&number, buffer, (size_t)len);
    return true;
}

static bool __cdecl on_log(char *filename, unsigned char *buffer, int len) { return filename != NULL && buffer != NULL && len > 0; }

static void __cdecl on_free(void *buffer) { (void)buffer; }

static bool __cdecl on_advance(int flags) { return flags == 0; }

/* A switch over GGPO's events alone. */
static bool __cdecl on_event(GGPOEvent *info) {
    switch (info->code) {
    case GGPO_EVENTCODE_CONNECTED_TO_PEER: number = info->u.connected.player; break;
    case GGPO_EVENTCODE_SYNCHRONIZING_WITH_PEER:
        number = info->u.synchronizing.player * info->u.synchronizing.count / info->u.synchronizing.total;
        break;
    case GGPO_EVENTCODE_SYNCHRONIZED_WITH_PEER: number = info->u.synchronized.player; break;
    case GGPO_EVENTCODE_RUNNING: break;
    case GGPO_EVENTCODE_CONNECTION_INTERRUPTED:
        number = info->u.connection_interrupted.player + info->u.connection_interrupted.disconnect_timeout;
        break;
    case GGPO_EVENTCODE_CONNECTION_RESUMED: number = info->u.connection_resumed.player; break;
    case GGPO_EVENTCODE_DISCONNECTED_FROM_PEER: number = info->u.disconnected.player; break;
    case GGPO_EVENTCODE_TIMESYNC: number = info->u.timesync.frames_ahead; break;
    }
    return true;
}

/* Each call, with what GGPO's header takes and answers. */
int names(void);

int names(void) {
    GGPOSession *session = NULL;
    GGPOSessionCallbacks cb;
    GGPOPlayer player;
    GGPOPlayerHandle handle = GGPO_INVALID_HANDLE;
    GGPONetworkStats stats;
    GGPOErrorCode result;
    char name[] = "names", host[] = "127.0.0.1";
    int inputs[GGPO_MAX_PLAYERS] = { 0 }, flags = 0;

    memset(&cb, 0, sizeof cb);
    cb.begin_game = on_begin;
    cb.advance_frame = on_advance;
    cb.load_game_state = on_load;
    cb.save_game_state = on_save;
    cb.free_buffer = on_free;
    cb.on_event = on_event;
    cb.log_game_state = on_log;
    player.size = sizeof(GGPOPlayer);
    player.type = GGPO_PLAYERTYPE_REMOTE;
    player.player_num = 1;
    memcpy(player.u.remote.ip_address, host, sizeof host);
    player.u.remote.port = 7000;

    result = ggpo_start_spectating(&session, &cb, name, 2, sizeof(int), 7000, host, 7001);
    if (!GGPO_SUCCEEDED(result))
        result = ggpo_start_synctest(&session, &cb, name, 2, sizeof(int), 1);
    if (!GGPO_SUCCEEDED(result))
        result = ggpo_start_session(&session, &cb, name, 2, sizeof(int), 7000);
    ggpo_set_disconnect_timeout(session, 3000);
    ggpo_set_disconnect_notify_start(session, 1000);
    result = ggpo_add_player(session, &player, &handle);
    result = ggpo_set_frame_delay(session, handle, 2);
    result = ggpo_idle(session, 1);
    result = ggpo_add_local_input(session, handle, &inputs[0], sizeof(int));
    result = ggpo_synchronize_input(session, (void *)inputs, sizeof inputs, &flags);
    result = ggpo_advance_frame(session);
    result = ggpo_get_network_stats(session, handle, &stats);
    number = stats.network.send_queue_len + stats.network.recv_queue_len + stats.network.ping + stats.network.kbps_sent
        + stats.timesync.local_frames_behind + stats.timesync.remote_frames_behind;
    result = ggpo_disconnect_player(session, handle);
    ggpo_log(session, "%d", number);
    return ggpo_close_session(session) == GGPO_OK && result == GGPO_OK;
}
