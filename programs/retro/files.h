/* Files as a whole, ROMs out of .zip files, and digests. */
#ifndef RETRO_FILES_H
#define RETRO_FILES_H

#include <stdbool.h>
#include <stddef.h>
#include <stdint.h>

typedef struct bytes {
    uint8_t *at;
    size_t size;
} bytes;

/* A file of at most 1 GB; false if it can't be read. An empty one has a place too. Free `at`. */
bool file_read(const char *path, bytes *out);

/* Writes it under another name first, so that what was there stays if this fails. */
bool file_write(const char *path, const void *from, size_t size);

/* A ROM: the file, or the first one in a .zip whose name ends in one of `extensions` (as "nes|unf"; null: the first one). The
 * name that it has there goes to `name`. False, and why. Free `at`. */
bool rom_read(const char *path, const char *extensions, bytes *out, char *name, size_t room, const char **why);

/* Where this user's file of this name is, in $FAZ_RETRO_HOME, else in ~/.local/share/faz-retro, which is made if it isn't there. */
void home_path(const char *name, char *out, size_t room);

/* Another one for most other bytes; for what is compared in play. */
uint64_t digest_of(const void *from, size_t size);

/* The first eight bytes of the SHA-256: for what is agreed on. */
uint64_t strong_digest_of(const void *from, size_t size);
#endif
