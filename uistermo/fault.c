/*
 * What is wrong with a byte of an image's header. That it is wrong, and which one, the library says; here its value and what it may be are put into
 * words. Quoted words are the documents'.
 */
#include <stdio.h>

#include "header.h"

/* "11 locks (bits 0, 1 blocks 0, 1; bit 2 AFI; bit 3 DSFID; bit 4 LOCK_CFG; others 0)" */
static struct fault wrong_locks(uint8_t locks)
{
    static const char *const set[] = {"no bit", "bit 5", "bit 6", "bits 5 and 6", "bit 7", "bits 5 and 7", "bits 6 and 7", "bits 5, 6 and 7"};
    struct fault f;
    snprintf(f.text, sizeof f.text, "it is %02Xh, with %s set; bits 5 to 7 have to be 0, so it may be 00h to %02Xh", locks, set[locks >> 5],
             HIGHEST_LOCKS);
    return f;
}

/* "byte 0 does not fit the image's length" */
static struct fault wrong_mark(const struct image *image)
{
    struct size size = size_of(image);
    struct fault f;
    snprintf(f.text, sizeof f.text, "it is %02Xh; the file has %s bytes, as the image of a %u Kbit tag, so it has to be %02Xh", image->bytes[MARK],
             figure((unsigned)image->length).text, size.kbit, size.mark);
    return f;
}

/* What an end may be, in hex and as the number that documents write. */
struct allowed {
    char text[40];
};

static struct allowed allowed_ends(uint8_t low, uint8_t high)
{
    struct allowed a;
    if (low < high)
        snprintf(a.text, sizeof a.text, "it may be %02Xh to %02Xh (%u to %u)", low, high, low, high);
    else
        snprintf(a.text, sizeof a.text, "it has to be %02Xh (%u)", high, high);
    return a;
}

/* The three ways: "each ENDAi is at most E; if ENDAi is below E then ENDA(i+1) is above ENDAi; if ENDAi is E then all later ends are E". */
static struct fault wrong_end(const struct image *image, size_t place)
{
    struct size size = size_of(image);
    unsigned area = area_at(place);
    uint8_t end = image->bytes[place], before = area > 1 ? image->bytes[place - NEXT_AREA] : 0;
    uint8_t lowest = area == 1 ? 0 : before < size.e ? (uint8_t)(before + 1) : size.e;
    struct allowed allowed = allowed_ends(lowest, size.e);
    struct fault f;
    if (end > size.e)
        snprintf(f.text, sizeof f.text, "ENDA%u is %02Xh (%u), above E, which is %02Xh (%u) for %u Kbit; %s", area, end, end, size.e, size.e, size.kbit,
                 allowed.text);
    else if (before < size.e)
        snprintf(f.text, sizeof f.text, "ENDA%u is %02Xh (%u), not above ENDA%u, which is %02Xh (%u); %s", area, end, end, area - 1, before, before,
                 allowed.text);
    else
        snprintf(f.text, sizeof f.text, "ENDA%u is %02Xh (%u), but ENDA%u is E, %02Xh (%u), after which every end is E; %s", area, end, end, area - 1,
                 before, before, allowed.text);
    return f;
}

int is_header_fault(uint64_t result)
{
    uint32_t number = uistermo_refusal(result);
    return number >= UISTERMO_REFUSED_MARK && number <= UISTERMO_REFUSED_RESERVED;
}

struct fault fault_of(const struct image *image, uint64_t result)
{
    size_t place = uistermo_place(result);
    struct fault f = {""};
    switch (uistermo_refusal(result)) {
    case UISTERMO_REFUSED_MARK:
        return wrong_mark(image);
    case UISTERMO_REFUSED_LOCK:
        return wrong_locks(image->bytes[place]);
    case UISTERMO_REFUSED_PROTECTION:
        snprintf(f.text, sizeof f.text, "RFA%uSS is %02Xh; it may be 00h to %02Xh", area_at(place), image->bytes[place], HIGHEST_PROTECTION);
        return f;
    case UISTERMO_REFUSED_END:
        return wrong_end(image, place);
    default: /* 5e; "51 to 63 zero" */
        snprintf(f.text, sizeof f.text, "it is %02Xh; it has to be 00h", image->bytes[place]);
        return f;
    }
}
