/*
 * An image's header: where its bytes are, what they say, and what is wrong with the one at fault. Quoted words are document 01's.
 */
#ifndef HEADER_H
#define HEADER_H

#include "image.h"

/* "Byte 0: 1 for 16 Kbit, 2 for 64 Kbit; 1 to 8 UID; 9 AFI; 10 DSFID; 11 locks .. 12 to 18 RFA1SS, ENDA1, RFA2SS, ENDA2, RFA3SS, ENDA3, RFA4SS;
   19 to 50 passwords 0 to 3; 51 to 63 zero." */
enum { MARK = 0, UID = 1, AFI = 9, DSFID = 10, LOCKS = 11, PROTECTION = 12, END = 13, PASSWORDS = 19, RESERVED = 51, HEADER = 64 };
enum { NEXT_AREA = 2, AREAS = 4 };
enum { HIGHEST_LOCKS = 0x1F, HIGHEST_PROTECTION = 0x0F };

/* A size of tag. "E is 63 or 255." */
struct size {
    unsigned kbit, blocks;
    uint8_t mark, e;
};

/* That of an image, by its length, which is one of the two that images have. */
struct size size_of(const struct image *image);

/* The area, from 1, whose protection byte or end is at a place. */
unsigned area_at(size_t place);

/* ---- what the bytes say, on standard output. Any bytes are taken, since those after a fault are not known to be right */

/* What a lock byte locks: `block 0, AFI`, or `nothing`. */
void print_locks(uint8_t locks);

/* Who may read and write an area, by its protection byte. */
void print_rights(unsigned area, uint8_t protection);

/* The blocks of an area, of a tag with so many: `blocks 0 to 511`, or `no blocks`. */
void print_blocks(unsigned area, const uint8_t *header, unsigned blocks);

/* ---- what is wrong */

/* Whether a result is 5a to 5e, and so has a place. */
int is_header_fault(uint64_t result);

/* Of the byte at that place: what it is, and what it may be. */
struct fault {
    char text[160];
};
struct fault fault_of(const struct image *image, uint64_t result);

#endif
