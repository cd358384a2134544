/* bin/uistermo factory: the image of a factory tag. */
#define _POSIX_C_SOURCE 200809L /* stpcpy */
#include <errno.h>
#include <stdlib.h>
#include <string.h>

#include "image.h"

static const char help[] =
    "Writes the image of a factory tag: memory, passwords, locks, AFI and DSFID are zero, and all blocks are Area 1, which\n"
    "everyone reads and writes. Requests of a session alter them: see bin/uistermo run --help.\n"
    "\n"
    "  16|64   the size: 16 Kbit (512 blocks, 2,048 bytes) or 64 Kbit (2,048 blocks, 8,192 bytes)\n"
    "  UID     16 hex digits, highest byte first, as on a label (answers have it lowest byte first); spaces and colons between\n"
    "          bytes are taken too\n"
    "  IMAGE   the file that is written; an image that is there is replaced, but no file of another length, unless it is empty\n"
    "\n"
    "Examples:\n"
    "  bin/uistermo factory 16 E002230401D6C8F0 tag.img\n"
    "  bin/uistermo factory 64 E0:02:23:04:01:D6:C8:F1 large.img\n";

/* The words with a space between them, since a label's UID may have been typed so; to be freed. */
static char *joined(char **words, int count)
{
    size_t length = 0;
    for (int i = 0; i < count; i++)
        length += strlen(words[i]) + 1;
    char *text = malloc(length), *at = text;
    for (int i = 0; text && i < count; i++) {
        if (i > 0)
            *at++ = ' ';
        at = stpcpy(at, words[i]);
    }
    return text;
}

static enum status make(size_t size, uint64_t uid, const char *path)
{
    struct tag tag = {.size = size};
    uint64_t result = uistermo_factory(tag.record, uid, tag.memory, tag.size);
    return uistermo_refusal(result) ? refused(path, result, "") : save_image(path, &tag);
}

static enum status run(const struct command *self, char **words, int count)
{
    uint64_t uid;
    enum status status = no_options(self, words, count);
    if (status != DONE)
        return status;
    if (count < 3)
        return wrong_words(self, "a size, a UID and an image file are needed");
    if (strcmp(words[0], "16") != 0 && strcmp(words[0], "64") != 0)
        return wrong_word(self, words[0], "a size is 16 or 64 (Kbit)");
    if (count > 3 && read_uid(words[1], &uid))
        return wrong_word(self, words[3], "one image file is enough");
    char *text = joined(words + 1, count - 2);
    if (!text)
        return unwritten(words[count - 1], strerror(ENOMEM));
    if (read_uid(text, &uid))
        status = make(words[0][0] == '1' ? UISTERMO_MEMORY_16K : UISTERMO_MEMORY_64K, uid, words[count - 1]);
    else
        status = wrong_word(self, text, UID_FORM "; the image file follows it");
    free(text);
    return status;
}

const struct command factory_command = {
    .name = "factory",
    .words = "16|64 UID IMAGE",
    .about = "writes the image of a factory tag",
    .help = help,
    .run = run,
};
