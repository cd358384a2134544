/* Reading and replacing files. */
#define _DEFAULT_SOURCE /* realpath, mkstemp, sigprocmask, flock */
#include <errno.h>
#include <fcntl.h>
#include <signal.h>
#include <stdio.h>
#include <stdlib.h>
#include <string.h>
#include <sys/file.h>
#include <sys/stat.h>
#include <unistd.h>

#include "file.h"

int read_most(int file, uint8_t *bytes, size_t most, size_t *length)
{
    ssize_t n = 1;
    *length = 0;
    while (*length < most && (n = read(file, bytes + *length, most - *length)) > 0)
        *length += (size_t)n;
    return n < 0 ? errno : 0;
}

enum status read_file(const char *path, uint8_t *bytes, size_t most, size_t *length)
{
    int file = open(path, O_RDONLY);
    if (file < 0)
        return unread(path, strerror(errno));
    int error = read_most(file, bytes, most, length);
    close(file);
    return error ? unread(path, strerror(error)) : DONE;
}

int is_plain_file(const char *path, size_t *length)
{
    struct stat s;
    if (stat(path, &s) != 0 || !S_ISREG(s.st_mode))
        return 0;
    *length = (size_t)s.st_size;
    return 1;
}

int is_same_file(const char *one, const char *other)
{
    struct stat s, t;
    return stat(one, &s) == 0 && stat(other, &t) == 0 && s.st_dev == t.st_dev && s.st_ino == t.st_ino;
}

/* ---- where a file is written. These give 0, or the error number of the system */

/* The file that a path leads to: a symbolic link's end; or the path itself where that is no plain file, or nothing is there. To be freed; NULL, with
   errno, where it leads nowhere. */
static char *place_of(const char *path)
{
    struct stat s;
    if (stat(path, &s) == 0)
        return S_ISREG(s.st_mode) ? realpath(path, NULL) : strdup(path);
    if (errno != ENOENT || *path == '\0' || lstat(path, &s) == 0)
        return NULL;
    return strdup(path);
}

/* A name in the folder of a place; to be freed. */
static char *in_folder(const char *place, const char *name)
{
    const char *slash = strrchr(place, '/');
    size_t folder = slash ? (size_t)(slash + 1 - place) : 0;
    char *path = malloc(folder + strlen(name) + 1);
    if (path) {
        memcpy(path, place, folder);
        strcpy(path + folder, name);
    }
    return path;
}

static int folder_writable(const char *place)
{
    char *folder = in_folder(place, ".");
    if (!folder)
        return ENOMEM;
    int error = access(folder, W_OK | X_OK) == 0 ? 0 : errno;
    free(folder);
    return error;
}

/* Also a file that nobody may write is taken to be meant so: the system would let root write it. */
static int writable(const char *place)
{
    struct stat s;
    if (stat(place, &s) != 0)
        return errno == ENOENT ? folder_writable(place) : errno;
    if (S_ISDIR(s.st_mode))
        return EISDIR;
    if ((s.st_mode & 0222) == 0)
        return EACCES;
    if (access(place, W_OK) != 0)
        return errno;
    return S_ISREG(s.st_mode) ? folder_writable(place) : 0;
}

enum status can_write(const char *path)
{
    char *place = place_of(path);
    int error = place ? writable(place) : errno;
    free(place);
    return error ? unwritten(path, strerror(error)) : DONE;
}

/* ---- writing */

static int put_bytes(int file, const uint8_t *bytes, size_t length)
{
    for (size_t at = 0; at < length;) {
        ssize_t n = write(file, bytes + at, length - at);
        if (n < 0)
            return errno;
        at += (size_t)n;
    }
    return 0;
}

static int put_straight(const char *place, const uint8_t *bytes, size_t length)
{
    int file = open(place, O_WRONLY);
    if (file < 0)
        return errno;
    int error = put_bytes(file, bytes, length);
    return close(file) != 0 && !error ? errno : error;
}

/* Owner and permissions as those of the file that is replaced, or as for any new file. Only root can give a file to another owner, and only a member
   to a group: where the group is another one, what the old one was allowed is not handed on. */
static int put_mode(int file, const char *place)
{
    struct stat s;
    mode_t mask = umask(0), mode = 0666 & ~mask;
    umask(mask);
    if (stat(place, &s) == 0) {
        mode = s.st_mode & 07777;
        if (fchown(file, s.st_uid, s.st_gid) != 0 && fchown(file, (uid_t)-1, s.st_gid) != 0)
            mode &= ~(mode_t)070;
    }
    return fchmod(file, mode) == 0 ? 0 : errno;
}

/* From here to the end a signal comes too late, and a limit on file sizes comes back as an error. */
static void block_signals(void)
{
    sigset_t all;
    sigfillset(&all);
    sigprocmask(SIG_SETMASK, &all, NULL);
}

static int replace(const char *place, char *name, const uint8_t *bytes, size_t length)
{
    block_signals();
    int file = mkstemp(name);
    if (file < 0)
        return errno;
    int error = put_mode(file, place);
    if (!error)
        error = put_bytes(file, bytes, length);
    if (!error && fsync(file) != 0)
        error = errno;
    if (close(file) != 0 && !error)
        error = errno;
    if (!error && rename(name, place) != 0)
        error = errno;
    if (error)
        unlink(name);
    return error;
}

static int put_file(const char *place, const uint8_t *bytes, size_t length)
{
    struct stat s;
    if (stat(place, &s) == 0 && !S_ISREG(s.st_mode))
        return put_straight(place, bytes, length);
    char *name = in_folder(place, ".uistermo-XXXXXX"); /* it does not grow with the place's own name, which may be as long as one can be */
    if (!name)
        return ENOMEM;
    int error = replace(place, name, bytes, length);
    free(name);
    return error;
}

enum status write_file(const char *path, const uint8_t *bytes, size_t length)
{
    char *place = place_of(path);
    int error = place ? put_file(place, bytes, length) : errno;
    free(place);
    return error ? unwritten(path, strerror(error)) : DONE;
}

int lock_folder(const char *path)
{
    char *place = place_of(path), *folder = place ? in_folder(place, ".") : NULL;
    int lock = folder ? open(folder, O_RDONLY) : -1;
    if (lock >= 0)
        flock(lock, LOCK_EX);
    free(folder);
    free(place);
    return lock;
}

void unlock_folder(int lock)
{
    if (lock >= 0)
        close(lock);
}
