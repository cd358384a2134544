/*
 * Reading and replacing files. What goes wrong is said on standard error.
 */
#ifndef FILE_H
#define FILE_H

#include <stddef.h>
#include <stdint.h>

#include "command.h"

/* Reads a file's bytes, so many at most. read_most is for a file that is open: it says nothing, and gives 0 or the error number of the system. */
enum status read_file(const char *path, uint8_t *bytes, size_t most, size_t *length);
int read_most(int file, uint8_t *bytes, size_t most, size_t *length);

/* Whether a path leads to a plain file, no folder, device or pipe; and how long that is. */
int is_plain_file(const char *path, size_t *length);

/* Whether two paths lead to one file that is there. */
int is_same_file(const char *one, const char *other);

/* Whether write_file may succeed, as far as can be told without writing. */
enum status can_write(const char *path);

/*
 * Writes a file, or replaces the one that is there: the bytes go beside it under another name, which is then renamed. So a full disk or an
 * interrupt leaves the file that was there as it was, and none beside it. A symbolic link stays, and what it leads to is replaced. A read-only
 * file is not to be replaced, though the system would let it be renamed over: can_write is asked first. To a device or a pipe the bytes go straight.
 */
enum status write_file(const char *path, const uint8_t *bytes, size_t length);

/* Keeps others that lock it from writing in the folder of a file until it is unlocked. A folder that cannot be read is not locked. */
int lock_folder(const char *path);
void unlock_folder(int lock);

#endif
