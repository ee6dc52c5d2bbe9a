#define _GNU_SOURCE
#include "system.h"

#include <signal.h>
#include <stdio.h>
#include <stdlib.h>
#include <string.h>
#include <unistd.h>

static const char crashed[] = "faz-retro: the core has crashed, or ended the program\n";

static void on_crash(int number) {
    (void)!write(STDERR_FILENO, crashed, sizeof crashed - 1);
    _exit(128 + number);
}

#ifdef _WIN32

#include <windows.h>

/* Windows loads a file once, so each library is a file of its own, as long as it is open. */
bool library_open(library *self, const bytes *from, const char **why) {
    static volatile LONG made;
    snprintf(self->path, sizeof self->path, "%.400s/faz-retro-%lu-%ld.dll", temporary_folder(), GetCurrentProcessId(),
             InterlockedIncrement(&made));
    *why = "there is no room for a copy of the core";
    if (!file_write(self->path, from->at, from->size))
        return false;
    self->handle = (void *)LoadLibraryA(self->path);
    *why = "it is no library that can be loaded here";
    if (self->handle == NULL)
        DeleteFileA(self->path);
    return self->handle != NULL;
}

void *library_find(const library *self, const char *name) {
    FARPROC found = GetProcAddress((HMODULE)self->handle, name);
    void *out;
    memcpy(&out, &found, sizeof out);
    return out;
}

void library_close(library *self) {
    if (self->handle != NULL) {
        FreeLibrary((HMODULE)self->handle);
        DeleteFileA(self->path);
    }
    self->handle = NULL;
}

long processors(void) {
    SYSTEM_INFO found;
    GetSystemInfo(&found);
    return (long)found.dwNumberOfProcessors;
}

const char *temporary_folder(void) {
    static char folder[MAX_PATH + 1];
    if (folder[0] == 0 && GetTempPathA(sizeof folder, folder) == 0)
        snprintf(folder, sizeof folder, ".");
    return folder;
}

void folder_make(const char *path) { CreateDirectoryA(path, NULL); }

bool file_move(const char *from, const char *to) { return MoveFileExA(from, to, MOVEFILE_REPLACE_EXISTING) != 0; }

void home_folder(char *out, size_t room) {
    const char *local = getenv("LOCALAPPDATA");
    snprintf(out, room, "%s/faz-retro", local != NULL ? local : ".");
    folder_make(out);
}

void crashes_are_said(void) {
    static const int signals[] = { SIGSEGV, SIGABRT, SIGFPE, SIGILL };
    for (size_t at = 0; at < sizeof signals / sizeof *signals; at++)
        signal(signals[at], on_crash);
}

#else

#include <dlfcn.h>
#include <sys/mman.h>
#include <sys/stat.h>

/* A copy in memory, under a name of its own for as long as it is open: the same file again would be the same library. */
bool library_open(library *self, const bytes *from, const char **why) {
    char name[64];
    self->handle = NULL;
    self->file = memfd_create("core", MFD_CLOEXEC);
    *why = "there is no room for a copy of the core";
    if (self->file < 0)
        return false;
    if (write(self->file, from->at, from->size) == (ssize_t)from->size) {
        snprintf(name, sizeof name, "/proc/self/fd/%d", self->file);
        self->handle = dlopen(name, RTLD_NOW | RTLD_LOCAL);
        *why = "it is no library that can be loaded here";
    }
    if (self->handle == NULL)
        close(self->file);
    return self->handle != NULL;
}

void *library_find(const library *self, const char *name) { return dlsym(self->handle, name); }

void library_close(library *self) {
    if (self->handle != NULL) {
        dlclose(self->handle);
        close(self->file);
    }
    self->handle = NULL;
}

long processors(void) { return sysconf(_SC_NPROCESSORS_ONLN); }

const char *temporary_folder(void) {
    const char *folder = getenv("TMPDIR");
    return folder != NULL ? folder : P_tmpdir;
}

void folder_make(const char *path) { mkdir(path, 0700); }

bool file_move(const char *from, const char *to) { return rename(from, to) == 0; }

void home_folder(char *out, size_t room) {
    static const char *const parts[] = { "/.local", "/.local/share", "/.local/share/faz-retro" };
    const char *user = getenv("HOME");
    for (size_t part = 0; part < sizeof parts / sizeof *parts; part++) {
        snprintf(out, room, "%s%s", user != NULL ? user : ".", parts[part]);
        folder_make(out);
    }
}

void crashes_are_said(void) {
    static const int signals[] = { SIGSEGV, SIGABRT, SIGBUS, SIGFPE, SIGILL };
    for (size_t at = 0; at < sizeof signals / sizeof *signals; at++) {
        struct sigaction old, new = { .sa_handler = on_crash };
        if (sigaction(signals[at], NULL, &old) == 0 && old.sa_handler == SIG_DFL) /* a sanitizer has its own */
            sigaction(signals[at], &new, NULL);
    }
}

#endif
