/* A match of two peers in one process, and a viewer who watches machine 0. One datagram in four is lost; the others come one to
 * four turns later. */
#include <fazgrond.h>
#include <inttypes.h>
#include <stdio.h>
#include <stdlib.h>
enum { SLOTS = 257, FRAMES = 600, UNDER_WAY = 64, TURN_MILLISECONDS = 16, VIEWER = 2 };
typedef struct datagram {
    uint32_t due, from;
    size_t length;
    uint8_t bytes[FAZGROND_DATAGRAM];
} datagram;

static datagram ways[3][UNDER_WAY]; /* what is on the way to each machine, and to the viewer */
static size_t on_the_way[3];
static fazgrond_session sessions[2];
static fazgrond_peer peers[2];
static uint64_t states[2], saved[2][SLOTS]; /* of the machines' games, whose opening is 0 */
static fazgrond_line line;
static fazgrond_viewer viewer;

static void must(int32_t code) {
    if (code != FAZGROND_OK)
        exit(1);
}

/* The game, and what a player holds in a frame: as in two_peers.c. */
static uint64_t stepped(uint64_t state, const fazgrond_row *row) {
    uint64_t sum = 31 * state;
    for (uint32_t at = 0; at < row->count; at++)
        sum += (row->gone >> at & 1) != 0 ? 5 : (uint64_t)(at + 1) * row->words[at];
    return sum % 1000003;
}

static uint32_t word_of(uint32_t me, uint32_t frame) {
    return frame / (5 + 2 * me) * 2654435761u >> 28;
}

static void send_to(uint32_t to, uint32_t from, uint32_t turn, datagram sent) {
    static uint32_t seed = 1;
    seed = seed * 1664525u + 1013904223u;
    if (seed >> 30 == 0 || on_the_way[to] == UNDER_WAY)
        return;
    sent.due = turn + 1 + (seed >> 16) % 4;
    sent.from = from;
    ways[to][on_the_way[to]++] = sent;
}

static void hear(uint32_t me, uint32_t turn) {
    uint32_t now = turn * TURN_MILLISECONDS, rows;
    for (size_t at = on_the_way[me]; at-- > 0;)
        if (ways[me][at].due <= turn) { /* what is refused has changed nothing */
            if (me == VIEWER)
                (void)fazgrond_viewer_receive(&viewer, ways[me][at].bytes, ways[me][at].length, now, &rows);
            else if (ways[me][at].from == VIEWER)
                (void)fazgrond_line_receive(&line, ways[me][at].bytes, ways[me][at].length, now);
            else
                (void)fazgrond_peer_receive(&peers[me], &sessions[me], ways[me][at].bytes, ways[me][at].length, now);
            ways[me][at] = ways[me][--on_the_way[me]];
        }
}

static void play(uint32_t me, uint32_t turn) {
    fazgrond_reached reached;
    fazgrond_row row;
    fazgrond_request request;
    uint32_t frame, is_running, has_news;
    must(fazgrond_peer_poll(&peers[me], &sessions[me], turn * TURN_MILLISECONDS));
    must(fazgrond_peer_is_running(&peers[me], &is_running));
    if (is_running == 0)
        return;
    must(fazgrond_frame(&sessions[me], &frame));
    must(fazgrond_has_news(&sessions[me], &has_news));
    if (fazgrond_add_local_input(&sessions[me], (uint8_t)(me + 1), word_of(me, frame)) == FAZGROND_OK)
        must(fazgrond_advance_frame(&sessions[me], &reached));
    else if (has_news != 0)
        must(fazgrond_synchronize_input(&sessions[me], &row));
    while (fazgrond_take_requests(&sessions[me], &request, 1) > 0)
        switch (request.kind) {
        case FAZGROND_LOAD: states[me] = saved[me][request.slot]; break;
        case FAZGROND_SAVE: saved[me][request.slot] = states[me]; break;
        case FAZGROND_STEP: states[me] = stepped(states[me], &request.row); break;
        }
}

/* A game draws these 64 bits from the system's random source, another one for each end that it opens. */
static uint64_t new_draw(void) {
    static uint64_t draw;
    return draw += 0x9e3779b97f4a7c15;
}

static void open_machine(uint32_t me) {
    fazgrond_settings settings = fazgrond_settings_for(2);
    fazgrond_match match = fazgrond_match_for(2, me);
    settings.local = 1u << me;
    settings.limit = FRAMES;
    match.owners[0] = 0; /* machine 0 has player 1 */
    match.owners[1] = 1;
    match.draw = new_draw();
    fazgrond_one_number(&match, 0x5eed5eed5eed5eed);
    must(fazgrond_open(&sessions[me], &settings));
    must(fazgrond_peer_open(&peers[me], &sessions[me], &match));
}

int main(void) {
    fazgrond_line_settings settings = { .number = 0x1157e2, .host = 0, .machines = 2, .silent_after = 5000,
                                        .owners = { 0, 1, 255, 255, 255, 255, 255, 255 } };
    fazgrond_line_state state = { 0 };
    fazgrond_row row;
    datagram sent = { 0 };
    uint64_t seen = 0; /* the state of the viewer's game, after so many rows */
    uint32_t rows = 0;
    for (uint32_t me = 0; me < 2; me++)
        open_machine(me);
    settings.draw = new_draw();
    must(fazgrond_line_open(&line, &settings));
    settings.draw = new_draw();
    must(fazgrond_viewer_open(&viewer, &settings));
    for (uint32_t turn = 0, now = 0; state.has_ended == 0; turn++, now += TURN_MILLISECONDS) {
        for (uint32_t me = 0; me < 2; me++) {
            hear(me, turn);
            play(me, turn);
            must(fazgrond_peer_send(&peers[me], &sessions[me], (uint8_t)(1 - me), now, sent.bytes, sizeof sent.bytes,
                                    &sent.length));
            send_to(1 - me, me, turn, sent);
        }
        if (fazgrond_line_send(&line, &sessions[0], now, sent.bytes, sizeof sent.bytes, &sent.length) == FAZGROND_OK)
            send_to(VIEWER, 0, turn, sent);
        hear(VIEWER, turn);
        for (; fazgrond_viewer_row(&viewer, &row) == FAZGROND_OK; rows++)
            seen = stepped(seen, &row);
        must(rows < FRAMES ? fazgrond_viewer_send(&viewer, now, sent.bytes, sizeof sent.bytes, &sent.length)
                           : fazgrond_viewer_bye(&viewer, sent.bytes, sizeof sent.bytes, &sent.length)); /* it has seen all */
        send_to(0, VIEWER, turn, sent);
        must(fazgrond_line_look(&line, now, &state));
    }
    printf("viewer: rows %" PRIu32 " state %" PRIu64 "\n", rows, seen);
    fazgrond_viewer_close(&viewer);
    fazgrond_line_close(&line);
    for (uint32_t me = 0; me < 2; me++) {
        fazgrond_peer_close(&peers[me]);
        fazgrond_close(&sessions[me]);
    }
    return 0;
}
