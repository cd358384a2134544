/* What is said on standard error, and standard output. */
#include <errno.h>
#include <inttypes.h>
#include <stdio.h>
#include <string.h>

#include "header.h"

static void usage(const struct command *c)
{
    fprintf(stderr, "uistermo: usage: bin/uistermo %s %s (bin/uistermo %s --help says more)\n", c->name, c->words, c->name);
}

enum status wrong_word(const struct command *c, const char *word, const char *why)
{
    fprintf(stderr, "uistermo: %s: '%s': %s\n", c->name, word, why);
    usage(c);
    return WRONG;
}

enum status wrong_words(const struct command *c, const char *why)
{
    fprintf(stderr, "uistermo: %s: %s\n", c->name, why);
    usage(c);
    return WRONG;
}

enum status unread(const char *path, const char *why)
{
    fprintf(stderr, "uistermo: %s: %s\n", path, why);
    return WRONG;
}

enum status unwritten(const char *path, const char *why)
{
    fprintf(stderr, "uistermo: %s: not written: %s\n", path, why);
    return WRONG;
}

enum status flush_output(void)
{
    return fflush(stdout) == 0 && !ferror(stdout) ? DONE : unwritten("standard output", strerror(errno));
}

/* 5a to 5e are 5Ah to 5Eh. */
struct figure refusal_number(uint64_t result)
{
    struct figure f;
    snprintf(f.text, sizeof f.text, is_header_fault(result) ? "%" PRIx32 : "%" PRIu32, uistermo_refusal(result));
    return f;
}

/* The words are those of document 01's table, "Host calls and their numbers", and of document 02's requests. */
enum status refused(const char *path, uint64_t result, const char *more)
{
    static const char *const words[] = {
        [UISTERMO_REFUSED_MEMORY] = "user memory lent is not 2,048 or 8,192 bytes, or does not fit the image's length",
        [UISTERMO_REFUSED_ROOM] = "answer room is below 10,243 bytes",
        [UISTERMO_REFUSED_RECORD] = "tag record breaks a record rule below",
        [UISTERMO_REFUSED_IMAGE] = "image is not 2,112 or 8,256 bytes",
        [UISTERMO_REFUSED_MARK] = "size mark",
        [UISTERMO_REFUSED_LOCK] = "lock byte",
        [UISTERMO_REFUSED_PROTECTION] = "protection byte",
        [UISTERMO_REFUSED_END] = "area end",
        [UISTERMO_REFUSED_RESERVED] = "reserved byte",
        [UISTERMO_REFUSED_TAGS] = "more than 256 tags",
        [UISTERMO_REFUSED_EQUAL] = "two UIDs are equal",
        [UISTERMO_REFUSED_SMALL] = "the list's room is too small for all",
    };
    uint32_t number = uistermo_refusal(result);
    int known = number < sizeof words / sizeof *words && words[number];
    fprintf(stderr, "uistermo: %s: refused %s: %s%s\n", path, refusal_number(result).text,
            known ? words[number] : "a number that this tool does not know", more);
    return REFUSED;
}

struct figure figure(unsigned n)
{
    struct figure f;
    if (n < 1000)
        snprintf(f.text, sizeof f.text, "%u", n);
    else
        snprintf(f.text, sizeof f.text, "%u,%03u", n / 1000, n % 1000);
    return f;
}

struct figure uid_digits(uint64_t uid)
{
    struct figure f;
    snprintf(f.text, sizeof f.text, "%016" PRIX64, uid);
    return f;
}
