/* Image files, by the library. */
#include "image.h"

#include <stdio.h>

#include "file.h"
#include "frame.h"
#include "header.h"

enum status refused_load(const char *path, const struct image *image, uint64_t result)
{
    char more[256] = "";
    if (uistermo_refusal(result) == UISTERMO_REFUSED_IMAGE) {
        int over = image->length > UISTERMO_IMAGE_64K;
        snprintf(more, sizeof more, "; it has %s%s bytes", over ? "over " : "", figure((unsigned)(over ? UISTERMO_IMAGE_64K : image->length)).text);
    } else if (is_header_fault(result)) {
        snprintf(more, sizeof more, ", at place %zu: %s", uistermo_place(result), fault_of(image, result).text);
    }
    return refused(path, result, more);
}

uint64_t load_result(const struct image *image, struct tag *tag)
{
    tag->size = image->length == UISTERMO_IMAGE_16K ? UISTERMO_MEMORY_16K : UISTERMO_MEMORY_64K;
    return uistermo_load(tag->record, image->bytes, image->length, tag->memory, tag->size);
}

enum status load_image(const char *path, struct image *image, struct tag *tag)
{
    enum status status = read_file(path, image->bytes, sizeof image->bytes, &image->length);
    return status == DONE ? load_read(path, image, tag) : status;
}

enum status load_read(const char *path, const struct image *image, struct tag *tag)
{
    uint64_t result = load_result(image, tag);
    return uistermo_refusal(result) ? refused_load(path, image, result) : DONE;
}

uint64_t image_uid(const struct image *image) { return uid_at(image->bytes + UID); }

enum status can_save(const char *path)
{
    size_t length;
    if (is_plain_file(path, &length) && length != 0 && length != UISTERMO_IMAGE_16K && length != UISTERMO_IMAGE_64K)
        return unwritten(path, "it is there and is no image");
    return can_write(path);
}

enum status save_image(const char *path, const struct tag *tag)
{
    enum status status = can_save(path);
    if (status != DONE)
        return status;
    uint8_t image[UISTERMO_IMAGE_64K];
    size_t room = tag->size == UISTERMO_MEMORY_16K ? UISTERMO_IMAGE_16K : UISTERMO_IMAGE_64K;
    uint64_t result = uistermo_save(tag->record, tag->memory, tag->size, image, room);
    return uistermo_refusal(result) ? refused(path, result, "") : write_file(path, image, uistermo_length(result));
}
