/*
 * A tray of tags, and the picture of a search over it.
 */
#ifndef TRAY_H
#define TRAY_H

#include "image.h"

/* Begins with zeros. It has room for one tag more than a search takes, so that too many are seen to be too many. */
struct tray {
    size_t count;
    uint64_t uids[UISTERMO_TAGS + 1]; /* in the order taken, those of standard input last */
    struct tag tags[UISTERMO_TAGS + 1];
};

/* Asks the tags themselves, request by request, and prints what they answered: `tray --help` says how. No two UIDs may be equal. */
enum status print_trace(struct tray *t);

#endif
