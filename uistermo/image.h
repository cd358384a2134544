/*
 * Image files: a tag is loaded from one and saved to one by the library. What goes wrong is said on standard error.
 */
#ifndef IMAGE_H
#define IMAGE_H

#include "command.h"
#include "uistermo.h"

/* What the library is lent for a tag. The memory's length says its size, so the buffer can serve both. */
struct tag {
    uint8_t record[UISTERMO_RECORD];
    uint8_t memory[UISTERMO_MEMORY_64K];
    size_t size;
};

/* The bytes of an image file: one more than the longest has, so that a longer file is seen to be longer. */
struct image {
    uint8_t bytes[UISTERMO_IMAGE_64K + 1];
    size_t length;
};

/* The tag of an image file; the field is off. image keeps the file's bytes. load_read is for a file that has been read. */
enum status load_image(const char *path, struct image *image, struct tag *tag);
enum status load_read(const char *path, const struct image *image, struct tag *tag);

/* The same in two steps: what the library says, and that it refused, with what is wrong with the file's length or with a byte of its header. */
uint64_t load_result(const struct image *image, struct tag *tag);
enum status refused_load(const char *path, const struct image *image, uint64_t result);

/* The UID of an image that has a header. */
uint64_t image_uid(const struct image *image);

/* Whether save_image may succeed, as far as can be told without writing. */
enum status can_save(const char *path);

/*
 * Saves a tag's lasting parts to an image file, as write_file does. A file that has an image's length is replaced, and so is an empty one, but any
 * other is not: it is a session, or a note, that a slip would lose.
 */
enum status save_image(const char *path, const struct tag *tag);

#endif
