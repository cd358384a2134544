/* bin/uistermo show: what is in an image, in words. */
#include <stdio.h>

#include "header.h"

static const char help[] =
    "Says what is in an image: size, UID (highest byte first), AFI and DSFID, what is locked, the four areas, and whether the\n"
    "memory is empty. Of an area it says the blocks, the two protection bits, the password that they ask for, and who may read\n"
    "and write: always, in its session (after that password is presented), or never. A password's value is never shown.\n"
    "An image that breaks a rule is refused, with the documents' number; where its header is wrong, with the byte at fault too, and\n"
    "bin/uistermo header IMAGE lists what is around it.\n"
    "\n"
    "Example:\n"
    "  bin/uistermo factory 16 E002230401D6C8F0 tag.img\n"
    "  bin/uistermo show tag.img\n";

enum { BLOCK = 4 };

static void show_areas(const uint8_t *header, unsigned blocks)
{
    for (unsigned i = 1; i <= AREAS; i++) {
        printf("Area %u    ", i);
        print_blocks(i, header, blocks);
        printf(", ");
        print_rights(i, header[PROTECTION + NEXT_AREA * (i - 1)]);
        putchar('\n');
    }
}

static void show_memory(const uint8_t *memory, unsigned blocks)
{
    unsigned used = 0, first = 0;
    for (unsigned i = blocks; i-- > 0;) {
        const uint8_t *b = memory + BLOCK * i;
        if (b[0] || b[1] || b[2] || b[3]) {
            used++;
            first = i;
        }
    }
    if (used == 0)
        printf("memory    empty, every byte is 00h\n");
    else
        printf("memory    not empty, other than 00h in %s of %s blocks, first in block %s\n", figure(used).text, figure(blocks).text,
               figure(first).text);
}

static enum status run(const struct command *self, char **words, int count)
{
    struct image image;
    struct tag tag;
    enum status status = one_image(self, words, count);
    if (status == DONE)
        status = load_image(words[0], &image, &tag);
    if (status != DONE)
        return status;
    struct size size = size_of(&image);
    printf("size      %u Kbit, %s blocks of 4 bytes\n", size.kbit, figure(size.blocks).text);
    printf("UID       %s\n", uid_digits(image_uid(&image)).text);
    printf("AFI       %02Xh\nDSFID     %02Xh\nlocked    ", image.bytes[AFI], image.bytes[DSFID]);
    print_locks(image.bytes[LOCKS]);
    putchar('\n');
    show_areas(image.bytes, size.blocks);
    show_memory(image.bytes + HEADER, size.blocks);
    return DONE;
}

const struct command show_command = {
    .name = "show",
    .words = "IMAGE",
    .about = "says what is in an image, in words",
    .help = help,
    .run = run,
};
