/* The log, and why calls are refused. */
#include "inside.h"

#include <inttypes.h>

static char start_error[160];

static void print_log(const char *format, va_list args) {
    const char *name = getenv("FAZGROND_GGPO_LOG");
    if (name == NULL || *name == 0)
        return;
    FILE *file = strcmp(name, "-") == 0 ? stderr : fopen(name, "a");
    if (file == NULL)
        return;
    vfprintf(file, format, args);
    fputs("\n", file);
    if (file != stderr)
        fclose(file);
}

void ggpo_logv(GGPOSession *session, const char *format, va_list args) {
    (void)session;
    print_log(format, args);
}

void ggpo_log(GGPOSession *session, const char *format, ...) {
    va_list args;
    va_start(args, format);
    ggpo_logv(session, format, args);
    va_end(args);
}

const char *ggpo_last_error(GGPOSession *session) { return session != NULL ? session->error : start_error; }

GGPOErrorCode ggponet_refuse(GGPOSession *session, GGPOErrorCode code, const char *format, ...) {
    char *error = session != NULL ? session->error : start_error;
    va_list args;
    va_start(args, format);
    vsnprintf(error, sizeof start_error, format, args);
    va_end(args);
    ggpo_log(session, "refused %d: %s", (int)code, error);
    return code;
}

/* GGPO's code for what the library says in words of its own. */
static GGPOErrorCode refuse_in_words(GGPOSession *session, GGPOErrorCode code, int32_t why) {
    uint8_t words[120];
    size_t length = fazgrond_text(why, words, sizeof words);
    if (length == 0)
        return ggponet_refuse(session, code, "the library refused it: %" PRId32, why);
    return ggponet_refuse(session, code, "%.*s", (int)(length < sizeof words ? length : sizeof words), (const char *)words);
}

GGPOErrorCode ggponet_refused(GGPOSession *session, int32_t code) {
    switch (code) {
    case FAZGROND_OK: return GGPO_OK;
    case FAZGROND_INVALID_PLAYER: return refuse_in_words(session, GGPO_ERRORCODE_INVALID_PLAYER_HANDLE, code);
    case FAZGROND_PLAYER_OUT_OF_RANGE: return refuse_in_words(session, GGPO_ERRORCODE_PLAYER_OUT_OF_RANGE, code);
    case FAZGROND_PREDICTION_THRESHOLD:
        return ggponet_refuse(session, GGPO_ERRORCODE_PREDICTION_THRESHOLD, "%d frames ahead of the others' inputs",
                              GGPO_MAX_PREDICTION_FRAMES);
    case FAZGROND_PLAYER_DISCONNECTED: return refuse_in_words(session, GGPO_ERRORCODE_PLAYER_DISCONNECTED, code);
    case FAZGROND_LOCAL_INPUT_MISSING:
        return ggponet_refuse(session, GGPO_ERRORCODE_INVALID_REQUEST, "a local player gave no input for this frame");
    case FAZGROND_FRAME_LIMIT: return ggponet_refuse(session, GGPO_ERRORCODE_INVALID_REQUEST, "a match ends at 1048576 frames");
    default: return refuse_in_words(session, GGPO_ERRORCODE_GENERAL_FAILURE, code);
    }
}

GGPOErrorCode ggponet_broken(GGPOSession *session, const char *why) {
    session->is_broken = true;
    return ggponet_refuse(session, GGPO_ERRORCODE_GENERAL_FAILURE, "%s", why);
}

GGPOErrorCode ggponet_can_call(GGPOSession *session, const char *name) {
    if (session == NULL)
        return GGPO_ERRORCODE_INVALID_SESSION;
    if (session->is_broken)
        return GGPO_ERRORCODE_GENERAL_FAILURE;
    if (session->in_rollback)
        return ggponet_refuse(session, GGPO_ERRORCODE_IN_ROLLBACK, "%s within advance_frame", name);
    return GGPO_OK;
}

GGPOErrorCode ggponet_no_player(GGPOSession *session, GGPOPlayerHandle handle) {
    return ggponet_refuse(session, GGPO_ERRORCODE_INVALID_PLAYER_HANDLE, "%d is no player of the session", handle);
}

GGPOErrorCode ggponet_is_too_late(GGPOSession *session, const char *what) {
    return ggponet_refuse(session, GGPO_ERRORCODE_UNSUPPORTED, "%s has to be said before the match opens", what);
}

GGPOErrorCode ggponet_only_watches(GGPOSession *session, const char *name) {
    return ggponet_refuse(session, GGPO_ERRORCODE_UNSUPPORTED, "%s is not for a session that watches", name);
}
