/* A bad line: what is sent may be lost, changed or late, if the game asked for it. */
#include "inside.h"

static uint32_t draw(GGPOSession *session, uint32_t below) {
    session->random ^= session->random << 13;
    session->random ^= session->random >> 7;
    session->random ^= session->random << 17;
    return (uint32_t)((session->random >> 16) % below);
}

static void put_on_line(GGPOSession *session, int to, const uint8_t *bytes, size_t length) {
    if (session->lag == 0) {
        ggponet_send_now(session, to, bytes, length);
        return;
    }
    delayed *made = malloc(sizeof *made);
    if (made == NULL)
        return;
    made->next = NULL;
    made->due = ggponet_micros(session) + (uint64_t)session->lag * 1000;
    made->machine = to;
    made->length = length;
    memcpy(made->bytes, bytes, length);
    if (session->last != NULL)
        session->last->next = made;
    else
        session->first = made;
    session->last = made;
}

/* Kilobytes are counted by the second. */
static void count_bytes(machine *other, uint64_t second, size_t length) {
    if (other->second != second) {
        other->bytes_before = other->second + 1 == second ? other->bytes_now : 0;
        other->bytes_now = 0;
        other->second = second;
    }
    other->bytes_now += (uint32_t)length + 28; /* and what UDP and IP put before it */
}

/* A copy with a changed byte. The sender's number stays, or it would be dropped for that. */
static void send_changed(GGPOSession *session, int to, const uint8_t *bytes, size_t length) {
    uint8_t copy[FAZGROND_DATAGRAM];
    memcpy(copy, bytes, length);
    uint32_t place = draw(session, (uint32_t)length);
    copy[place] ^= (uint8_t)(place == SENDER_AT ? 0 : 1 + draw(session, 255));
    put_on_line(session, to, copy, length - (place == SENDER_AT));
}

void ggponet_send_to(GGPOSession *session, int to, const uint8_t *bytes, size_t length) {
    count_bytes(&session->machine[to], ggponet_micros(session) / 1000000, length);
    if (draw(session, 100) >= (uint32_t)session->loss)
        put_on_line(session, to, bytes, length);
    if (draw(session, 100) < (uint32_t)session->junk && length > 0 && length <= FAZGROND_DATAGRAM)
        send_changed(session, to, bytes, length);
}

void ggponet_send_due_of_line(GGPOSession *session) {
    while (session->first != NULL && session->first->due <= ggponet_micros(session)) {
        delayed *sent = session->first;
        ggponet_send_now(session, sent->machine, sent->bytes, sent->length);
        session->first = sent->next;
        if (session->first == NULL)
            session->last = NULL;
        free(sent);
    }
}

void ggponet_free_line(GGPOSession *session) {
    while (session->first != NULL) {
        delayed *one = session->first;
        session->first = one->next;
        free(one);
    }
}

GGPOErrorCode fazggpo_set_line(GGPOSession *session, int lag, int loss, int junk) {
    if (session == NULL)
        return GGPO_ERRORCODE_INVALID_SESSION;
    if (lag < 0 || loss < 0 || loss > 100 || junk < 0 || junk > 100)
        return ggponet_refuse(session, GGPO_ERRORCODE_INVALID_REQUEST, "a lag below 0, or no share of a hundred");
    session->lag = lag;
    session->loss = loss;
    session->junk = junk;
    return GGPO_OK;
}
