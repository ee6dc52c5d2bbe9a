#include "trace.h"

#include <inttypes.h>

static void begin(trace *self, const char *what, uint32_t machine) {
    fprintf(self->out, "{\"turn\":%" PRIu32 ",\"machine\":%" PRIu32 ",\"event\":\"%s\"", self->turn, machine, what);
}

static void number(trace *self, const char *name, uint64_t value) { fprintf(self->out, ",\"%s\":%" PRIu64, name, value); }

static void end(trace *self) { fputs("}\n", self->out); }

void trace_sent(trace *self, uint32_t from, uint32_t to, size_t length) {
    if (self == NULL)
        return;
    begin(self, "sent", from);
    number(self, "to", to);
    number(self, "bytes", length);
    end(self);
}

void trace_came(trace *self, uint32_t from, uint32_t to, size_t length, int32_t code) {
    if (self == NULL)
        return;
    begin(self, "came", to);
    number(self, "from", from);
    number(self, "bytes", length);
    number(self, "code", (uint32_t)code);
    end(self);
}

static const char *kind_of(uint32_t kind) {
    static const char *const names[] = { "load", "save", "step", "free", "job load", "job save", "job step" };
    return kind >= FAZGROND_LOAD && kind <= FAZGROND_JOB_STEP ? names[kind - FAZGROND_LOAD] : "unknown";
}

/* The words of a row, null for a player who has left. */
static void row(trace *self, const fazgrond_row *of) {
    fputs(",\"row\":[", self->out);
    for (uint32_t at = 0; at < of->count; at++)
        if ((of->gone >> at & 1) != 0)
            fprintf(self->out, "%snull", at > 0 ? "," : "");
        else
            fprintf(self->out, "%s%" PRIu32, at > 0 ? "," : "", of->words[at]);
    fputs("]", self->out);
}

void trace_request(trace *self, uint32_t machine, const fazgrond_request *request) {
    if (self == NULL)
        return;
    begin(self, "request", machine);
    fprintf(self->out, ",\"kind\":\"%s\"", kind_of(request->kind));
    if (request->kind == FAZGROND_STEP)
        row(self, &request->row);
    else
        number(self, "slot", request->slot);
    end(self);
}

void trace_opened(trace *self, uint32_t machine, const fazgrond_settings *settings) {
    if (self == NULL)
        return;
    begin(self, "opened", machine);
    number(self, "players", settings->players);
    number(self, "delay", settings->delays[machine]);
    number(self, "threshold", settings->threshold);
    end(self);
}

void trace_entry(trace *self, uint32_t machine, const fazgrond_entry *entry) {
    static const char *const kinds[] = { "local", "remote", "disconnect", "sync", "advance", "graft" };
    if (self == NULL)
        return;
    begin(self, kinds[entry->kind - FAZGROND_LOCAL], machine);
    if (entry->kind <= FAZGROND_DISCONNECT)
        number(self, "player", entry->player);
    if (entry->kind <= FAZGROND_REMOTE) {
        number(self, "frame", entry->frame);
        number(self, "word", entry->word);
    }
    end(self);
}

void trace_guess(trace *self, uint32_t machine, uint32_t player, const fazgrond_foreseen *guess, uint32_t until, bool is_taken) {
    if (self == NULL)
        return;
    begin(self, "guess", machine);
    number(self, "player", player);
    number(self, "until", until);
    fputs(",\"words\":[", self->out);
    for (uint32_t at = 0; at < guess->count; at++)
        fprintf(self->out, "%s%" PRIu32, at > 0 ? "," : "", guess->words[at]);
    fprintf(self->out, "],\"is_taken\":%s}\n", is_taken ? "true" : "false");
}

void trace_roll(trace *self, uint32_t machine, const observer *seen) {
    if (self == NULL)
        return;
    const roll *last = &seen->last;
    begin(self, "roll", machine);
    number(self, "at", last->at);
    number(self, "rerun", last->rerun);
    number(self, "ggpo", last->ggpo);
    if (last->player > 0) {
        number(self, "player", last->player);
        number(self, "frame", last->frame);
        fprintf(self->out, ",\"has_left\":%s", last->has_left ? "true" : "false");
    }
    end(self);
}

void trace_told(trace *self, uint32_t machine, const fazgrond_event *event) {
    if (self == NULL)
        return;
    uint8_t text[256];
    size_t length = fazgrond_text((int32_t)event->code, text, sizeof text);
    begin(self, "told", machine);
    number(self, "code", event->code);
    fprintf(self->out, ",\"means\":\"%.*s\"", (int)(length < sizeof text ? length : sizeof text), (const char *)text);
    number(self, "of", event->machine);
    number(self, "player", event->player);
    end(self);
}

void trace_settled(trace *self, uint32_t machine, uint32_t frame, uint64_t digest) {
    if (self == NULL)
        return;
    begin(self, "settled", machine);
    number(self, "frame", frame);
    fprintf(self->out, ",\"digest\":\"%016" PRIx64 "\"}\n", digest);
}
