#define _POSIX_C_SOURCE 200809L
#include "files.h"
#include "system.h"

#include "../../lib/sha256.h"

#include <stdio.h>
#include <stdlib.h>
#include <string.h>
#include <strings.h>
#include <sys/stat.h>
#include <zlib.h>

enum { MOST = 1 << 30 };

bool file_read(const char *path, bytes *out) {
    FILE *file = fopen(path, "rb");
    struct stat about;
    *out = (bytes){ NULL, 0 };
    if (file == NULL)
        return false;
    if (fstat(fileno(file), &about) == 0 && S_ISREG(about.st_mode) && about.st_size <= MOST)
        out->at = malloc((size_t)about.st_size + 1);
    if (out->at != NULL && fread(out->at, 1, (size_t)about.st_size, file) == (size_t)about.st_size)
        out->size = (size_t)about.st_size;
    else {
        free(out->at);
        out->at = NULL;
    }
    fclose(file);
    return out->at != NULL;
}

bool file_write(const char *path, const void *from, size_t size) {
    char other[4096];
    if (snprintf(other, sizeof other, "%s.new", path) >= (int)sizeof other)
        return false;
    FILE *file = fopen(other, "wb");
    if (file == NULL)
        return false;
    bool is_written = fwrite(from, 1, size, file) == size;
    if (fclose(file) != 0 || !is_written || !file_move(other, path)) {
        remove(other);
        return false;
    }
    return true;
}

static uint32_t little(const uint8_t *at, int count) {
    uint32_t number = 0;
    while (count-- > 0)
        number = number << 8 | at[count];
    return number;
}

/* Whether a name ends in one of the extensions. */
static bool has_extension(const char *name, const char *extensions) {
    const char *dot = strrchr(name, '.');
    if (extensions == NULL || *extensions == 0)
        return true;
    for (const char *at = extensions; dot != NULL && at != NULL; at = strchr(at, '|')) {
        at += *at == '|';
        size_t length = strcspn(at, "|");
        if (strlen(dot + 1) == length && strncasecmp(dot + 1, at, length) == 0)
            return true;
    }
    return false;
}

/* The bytes of a file in a .zip, whose entry in the directory stands at `entry`. */
static bool unpack(const bytes *zip, const uint8_t *entry, bytes *out) {
    uint32_t how = little(entry + 10, 2), packed = little(entry + 20, 4), size = little(entry + 24, 4);
    uint32_t local = little(entry + 42, 4);
    if (size > MOST || zip->size < 30 || local > zip->size - 30)
        return false;
    size_t from = (size_t)local + 30 + little(zip->at + local + 26, 2) + little(zip->at + local + 28, 2);
    if (from > zip->size || packed > zip->size - from || (how != 0 && how != 8) || (out->at = malloc((size_t)size + 1)) == NULL)
        return false;
    z_stream stream = { .next_in = zip->at + from, .avail_in = packed, .next_out = out->at, .avail_out = size };
    if (how == 0 && packed == size)
        memcpy(out->at, zip->at + from, size);
    else if (how == 0 || inflateInit2(&stream, -MAX_WBITS) != Z_OK)
        return free(out->at), false;
    else {
        int code = inflate(&stream, Z_FINISH);
        inflateEnd(&stream);
        if (code != Z_STREAM_END || stream.total_out != size)
            return free(out->at), false;
    }
    out->size = size;
    return crc32(0, out->at, size) == little(entry + 16, 4) || (free(out->at), false);
}

/* Looks through the directory of a .zip, whose end stands in its last bytes. */
static bool unzip(const bytes *zip, const char *extensions, bytes *out, char *name, size_t room) {
    size_t end = zip->size - 22;
    while (end > 0 && zip->size - end < 65557 && little(zip->at + end, 4) != 0x06054b50)
        end--;
    size_t at = little(zip->at + end + 16, 4);
    for (uint32_t left = little(zip->at + end + 10, 2); left > 0; left--) {
        if (at > end || end - at < 46 || little(zip->at + at, 4) != 0x02014b50)
            return false;
        size_t length = little(zip->at + at + 28, 2);
        size_t next = 46 + length + little(zip->at + at + 30, 2) + little(zip->at + at + 32, 2);
        if (next > end - at)
            return false;
        snprintf(name, room, "%.*s", (int)length, (const char *)zip->at + at + 46);
        if (length > 0 && name[strlen(name) - 1] != '/' && has_extension(name, extensions))
            return unpack(zip, zip->at + at, out);
        at += next;
    }
    return false;
}

bool rom_read(const char *path, const char *extensions, bytes *out, char *name, size_t room, const char **why) {
    const char *slash = strrchr(path, '/');
    bytes file;
    *why = "the ROM can't be read";
    if (!file_read(path, &file))
        return false;
    *why = "there is no ROM for this core in the .zip, or it is damaged";
    snprintf(name, room, "%s", slash != NULL ? slash + 1 : path);
    if (file.size < 22 || little(file.at, 4) != 0x04034b50) {
        *out = file;
        return true;
    }
    bool is_there = unzip(&file, extensions, out, name, room);
    free(file.at);
    return is_there;
}

void home_path(const char *name, char *out, size_t room) {
    const char *home = getenv("FAZ_RETRO_HOME");
    char folder[2048];
    if (home != NULL)
        snprintf(folder, sizeof folder, "%s", home);
    else
        home_folder(folder, sizeof folder);
    snprintf(out, room, "%s/%s", folder, name);
}

uint64_t digest_of(const void *from, size_t size) {
    const uint8_t *at = from;
    uint64_t sum = 0xcbf29ce484222325u ^ size;
    for (; size >= 8; size -= 8, at += 8) {
        uint64_t word;
        memcpy(&word, at, 8);
        sum = (sum ^ word) * 0x9e3779b97f4a7c15u;
        sum ^= sum >> 29;
    }
    for (; size > 0; size--, at++)
        sum = (sum ^ *at) * 0x100000001b3u;
    return sum;
}

uint64_t strong_digest_of(const void *from, size_t size) {
    sha256 made = sha256_begin();
    sha256_add(&made, from, size);
    return sha256_end(&made);
}
