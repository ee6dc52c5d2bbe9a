/* The messages of a match that is watched over a broker, and what they are called there. docs/WATCH.md has their bytes. */
#ifndef FAZ_MESSAGE_H
#define FAZ_MESSAGE_H

#include "faz_game.h"

#ifdef __cplusplus
extern "C" {
#endif

enum {
    FAZ_RUN = 15,             /* the most frames of a run: the next one begins at a multiple of this, or before */
    FAZ_CHAPTER = 600,        /* the frames from a snapshot to the next */
    FAZ_LAST_FRAME = 1048576, /* as a session's */
    FAZ_NAME = 33,            /* room for the name of a match, a game or a publisher, with its end */
    FAZ_REASON = 128,         /* room for the reason of an end */
    FAZ_SUBJECT = 96,
    FAZ_MOST_STATE = 1000000, /* the most bytes of a state: a broker takes 1 MiB in a message */
    FAZ_SMALL = 1280          /* room for any message but a snapshot */
};

typedef enum faz_kind {
    FAZ_ROWS = 1, /* of one run; 1 is the kind of a play, too (docs/WIRE.md) */
    FAZ_HEAD = 16,
    FAZ_SNAP = 17, /* the state after so many frames, and its digest */
    FAZ_SUM = 18,  /* the digest alone */
    FAZ_END = 19
} faz_kind;

/* What is the same all through a match. */
typedef struct faz_head {
    uint32_t players, rate;                               /* rate: frames a second */
    uint32_t profile, threshold, masks[FAZGROND_PLAYERS]; /* as in the settings of the players' sessions */
    uint32_t size;                                        /* of a state */
    char game[FAZ_NAME];
} faz_head;

/* The digest of the state after so many frames. Frames from `gap` on, up to this one, could not be published; if they could,
 * `gap` is the frame itself. */
typedef struct faz_sum {
    uint32_t frame, gap;
    uint64_t digest;
} faz_sum;

/* Whether this can be a name: letters, digits, - and _, 1 to 32 of them. */
bool faz_is_name(const char *name);

/* The number that a match's messages are sealed with. Whoever knows the name knows it: it keeps out no one, but messages of
 * other matches, and such as were changed. */
uint64_t faz_number(const char *match);

/* The subject of messages of a kind. Those of runs, digests and the end have one with their chapter in it, and snapshots
 * another: frame / FAZ_CHAPTER. */
void faz_subject(char *out, const char *match, faz_kind kind, uint32_t chapter);

/* The id of a message, by which the broker takes it once: match, kind and first frame. */
void faz_id(char *out, const char *match, faz_kind kind, uint32_t frame);

/* What these bytes are, if they are a message. */
faz_kind faz_kind_of(const uint8_t *bytes, size_t length);

/* The first frame of a run, and the frame of a snapshot, a digest or an end; 0 of what has none. */
uint32_t faz_frame_of(const uint8_t *bytes, size_t length);

/* Each writes a message, into FAZ_SMALL bytes, and says how many it wrote. Of rows there are 1 or more, up to the next frame
 * that is a multiple of FAZ_RUN, and who is gone in one of them is gone in all that follow: where somebody comes back another
 * run begins. */
size_t faz_write_head(uint8_t *out, uint64_t number, const faz_head *head);
size_t faz_write_rows(uint8_t *out, uint64_t number, uint32_t first, const fazgrond_row *rows, uint32_t count);
size_t faz_write_sum(uint8_t *out, uint64_t number, const faz_sum *sum);
size_t faz_write_end(uint8_t *out, uint64_t number, uint32_t frames, const char *reason);
/* The same, into so many bytes more as a state has. */
size_t faz_write_snap(uint8_t *out, uint64_t number, const faz_sum *sum, const void *state, size_t size);

/* The version of a header that is whole, and of another version than is read here; 0 if it is none. */
uint32_t faz_other_version(const uint8_t *bytes, size_t length, uint64_t number);

/* Each reads a message, whatever the bytes are, and says whether it is one. How many rows; 0 if it is none. */
bool faz_read_head(const uint8_t *bytes, size_t length, uint64_t number, faz_head *head);
uint32_t faz_read_rows(const uint8_t *bytes, size_t length, uint64_t number, uint32_t players, uint32_t *first, fazgrond_row *rows);
bool faz_read_sum(const uint8_t *bytes, size_t length, uint64_t number, faz_sum *sum);
bool faz_read_end(const uint8_t *bytes, size_t length, uint64_t number, uint32_t *frames, char *reason);
/* Into a place for a state, which is that of the digest; what is there if there is none has no meaning. */
bool faz_read_snap(const uint8_t *bytes, size_t length, uint64_t number, const faz_game *game, uint32_t players, faz_sum *sum, void *state);

#ifdef __cplusplus
}
#endif
#endif
