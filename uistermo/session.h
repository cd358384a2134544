/*
 * A session of tagrun's lines over a tag. Quoted words are document 01's, "Session program".
 */
#ifndef SESSION_H
#define SESSION_H

#include "image.h"

/* "a request in upper-case hex without CRC, 2 to 128 digits, an even number" */
enum { FEWEST_DIGITS = 2, MOST_DIGITS = 128 };

/* A line as far as it has come: a request with a carriage return, as lines of Windows end in, and one byte by which a longer line is seen to be longer. */
struct line {
    char text[MOST_DIGITS + 2];
    size_t length;
};

/* Begins with a tag, the path of its image, which is named where something goes wrong, and zeros. */
struct session {
    struct tag tag;
    const char *image;
    struct line line;
    uint64_t number;      /* of the line last answered */
    uint64_t formless;    /* how many had no form, */
    uint64_t first;       /* the number of the first of these, */
    int first_has_return; /* and whether it ends in a carriage return */
    uint8_t room[UISTERMO_ROOM];
};

/*
 * Reads lines to the end of a file, whose name it is told, and prints tagrun's line for each. What is answered is written before more is read, so
 * that who types or sends line by line has each answer at once.
 */
enum status run_lines(struct session *s, int source, const char *name);

/* Says on standard error how many lines had no form, if any: `?` alone does not say why. */
void say_formless(const struct session *s, const char *name);

#endif
