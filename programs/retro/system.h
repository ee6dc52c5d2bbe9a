/* What each system has in its own way: libraries, files, crashes. */
#ifndef RETRO_SYSTEM_H
#define RETRO_SYSTEM_H

#include "files.h"

/* A library of which others may be loaded too, each with its own data. */
typedef struct library {
    void *handle; /* null if it isn't open */
#ifdef _WIN32
    char path[600]; /* of its copy */
#else
    int file;
#endif
} library;

/* Loads a copy of a library. Whether it could; else `why` says what is wrong. */
bool library_open(library *self, const bytes *from, const char **why);
/* What it has under a name, or null. */
void *library_find(const library *self, const char *name);
void library_close(library *self);

/* How many processors there are. */
long processors(void);

/* Where files go that are of use for a moment. */
const char *temporary_folder(void);

/* Makes a folder, if it isn't there. */
void folder_make(const char *path);
/* Puts a file in another's place, or where none is. */
bool file_move(const char *from, const char *to);
/* Where the user's programs keep their files. */
void home_folder(char *out, size_t room);

/* A crash of this process, also one in a library, is said on standard error at least. */
void crashes_are_said(void);
#endif
