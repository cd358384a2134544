/* What the bytes of an image's header say. Quoted words are document 01's. */
#include <stdio.h>

#include "header.h"

enum { END_UNIT = 8 };

enum right { ALWAYS, IN_SESSION, NEVER };

struct rights {
    enum right read, write;
};

/* By protection bits. "Area 1 is always readable; write: 00 always, 01 and 10 in session, 11 never." */
static const struct rights first_area[] = {{ALWAYS, ALWAYS}, {ALWAYS, IN_SESSION}, {ALWAYS, IN_SESSION}, {ALWAYS, NEVER}};

/* "Areas 2 to 4: 00 read and write always; 01 read always, write in session; 10 both in session; 11 read in session, write never." */
static const struct rights later_areas[] = {{ALWAYS, ALWAYS}, {ALWAYS, IN_SESSION}, {IN_SESSION, IN_SESSION}, {IN_SESSION, NEVER}};

/* "With password bits 00 no session serves." */
static const char *words_of(enum right r, unsigned password)
{
    return r == ALWAYS ? "always" : r == IN_SESSION && password ? "in its session" : "never";
}

struct size size_of(const struct image *image)
{
    static const struct size small = {16, 512, UISTERMO_MARK_16K, 63}, large = {64, 2048, UISTERMO_MARK_64K, 255};
    return image->length == UISTERMO_IMAGE_16K ? small : large;
}

unsigned area_at(size_t place) { return (unsigned)(place - PROTECTION) / NEXT_AREA + 1; }

/* "bits 0, 1 blocks 0, 1; bit 2 AFI; bit 3 DSFID; bit 4 LOCK_CFG; others 0" */
void print_locks(uint8_t locks)
{
    static const char *const names[] = {"block 0", "block 1", "AFI", "DSFID", "configuration (LOCK_CFG)", "bit 5", "bit 6", "bit 7"};
    const char *before = "";
    fputs(locks ? "" : "nothing", stdout);
    for (unsigned i = 0; i < sizeof names / sizeof *names; i++)
        if (locks >> i & 1) {
            printf("%s%s", before, names[i]);
            before = ", ";
        }
}

/* "RFAiSS bits 1-0 name password 1, 2 or 3, or none (00); bits 3-2 give protection." */
void print_rights(unsigned area, uint8_t protection)
{
    if (protection > HIGHEST_PROTECTION) {
        printf("%02Xh is above %02Xh", protection, HIGHEST_PROTECTION);
        return;
    }
    unsigned bits = protection >> 2, password = protection & 3;
    const struct rights *r = area == 1 ? &first_area[bits] : &later_areas[bits];
    printf("protection %u%u, ", bits >> 1, bits & 1);
    if (password)
        printf("password %u", password);
    else
        printf("no password");
    printf(": read %s, write %s", words_of(r->read, password), words_of(r->write, password));
}

/* The block after the last of the areas up to one. "Area i is the lowest i with block at most 8 × ENDAi + 7; Area 4 takes the rest." */
static unsigned after_area(unsigned area, const uint8_t *header, unsigned blocks)
{
    unsigned after = area == AREAS ? blocks : 0;
    for (unsigned i = 1; i <= area && i < AREAS; i++) {
        unsigned its = END_UNIT * (header[END + NEXT_AREA * (i - 1)] + 1u);
        after = its > after ? its : after;
    }
    return after;
}

void print_blocks(unsigned area, const uint8_t *header, unsigned blocks)
{
    unsigned first = after_area(area - 1, header, blocks), after = after_area(area, header, blocks);
    if (first < after)
        printf("blocks %s to %s", figure(first).text, figure(after - 1).text);
    else
        printf("no blocks");
}
