/* bin/uistermo header: the bytes of an image's header, and the one at fault. Quoted words are document 01's. */
#include "header.h"

#include <stdio.h>

#include "file.h"
#include "frame.h"

static const char help[] =
    "Lists every byte of an image's header by its place, from 0: what it is and what it says. Where the header breaks a rule, <-- and\n"
    "the number mark the lowest byte at fault, and the exit status is 1; bytes after it are listed, and not judged: an end after\n"
    "it says its number alone. Bytes 19 to 50, the passwords, are never shown; where bytes are missing or too many, some of a password\n"
    "may stand at other places. The memory is not looked at.\n"
    "\n"
    "  0          size mark: 01h for 16 Kbit, 02h for 64 Kbit, as the file's length asks for (2,112 or 8,256 bytes); else 5a\n"
    "  1 to 8     UID, lowest byte first\n"
    "  9, 10      AFI, DSFID\n"
    "  11         lock byte: bits 0 and 1 lock blocks 0 and 1, bit 2 AFI, bit 3 DSFID, bit 4 the configuration; bits 5 to 7 are 0,\n"
    "             else 5b\n"
    "  12 to 18   RFA1SS, ENDA1, RFA2SS, ENDA2, RFA3SS, ENDA3, RFA4SS. The protection bytes RFA1SS to RFA4SS are 00h to 0Fh, else 5c.\n"
    "             The area ends ENDA1 to ENDA3 are at most E (63 for 16 Kbit, 255 for 64 Kbit), each above the one before it, or E\n"
    "             where that is E; else 5d\n"
    "  19 to 50   passwords 0 to 3, of 8 bytes each, lowest byte first\n"
    "  51 to 63   reserved bytes: 00h, else 5e\n"
    "\n"
    "Loading an image with such a fault is refused by its number, 5a to 5e, and its place, with what stands there and what may.\n"
    "A file of another length is refused with number 4, and nothing is listed: what the bytes may be depends on it.\n"
    "\n"
    "Example:\n"
    "  bin/uistermo factory 16 E002230401D6C8F0 tag.img\n"
    "  bin/uistermo header tag.img\n";

enum { NO_FAULT = HEADER, ROW_BYTES = 8 };

/* What is listed: an image, the size that its length says, and what the library said of it. */
struct listing {
    const struct image *image;
    struct size size;
    uint64_t result;
    size_t fault; /* the place of the byte at fault, or NO_FAULT */
};

/* ---- what a byte says */

static void say_size(const struct listing *l, size_t place)
{
    (void)place;
    printf("%u Kbit, %s blocks of 4 bytes", l->size.kbit, figure(l->size.blocks).text);
}

static void say_uid(const struct listing *l, size_t place)
{
    (void)place;
    fputs(uid_digits(image_uid(l->image)).text, stdout);
}

static void say_byte(const struct listing *l, size_t place) { printf("%02Xh", l->image->bytes[place]); }

static void say_locks(const struct listing *l, size_t place)
{
    printf("locked: ");
    print_locks(l->image->bytes[place]);
}

static void say_rights(const struct listing *l, size_t place)
{
    printf("Area %u: ", area_at(place));
    print_rights(area_at(place), l->image->bytes[place]);
}

static void say_blocks(const struct listing *l, unsigned area)
{
    printf("Area %u has ", area);
    print_blocks(area, l->image->bytes, l->size.blocks);
}

/* The last end says of two areas: "Area 4 takes the rest." After a fault no end is known to be right, and areas rest on those before them. */
static void say_end(const struct listing *l, size_t place)
{
    printf("%u", l->image->bytes[place]);
    if (place > l->fault)
        return;
    printf(": ");
    say_blocks(l, area_at(place));
    if (area_at(place) == AREAS - 1) {
        printf(", ");
        say_blocks(l, AREAS);
    }
}

static void say_password(const struct listing *l, size_t place)
{
    (void)l;
    fputs(place == PASSWORDS ? "of the configuration" : "of areas", stdout);
}

static void say_reserved(const struct listing *l, size_t place)
{
    (void)l, (void)place;
    fputs("to be 00h", stdout);
}

/* ---- rows */

struct row {
    size_t place, count;
    const char *name; /* in words, those of document 02 where it has some, and by its name in 01 */
    void (*say)(const struct listing *l, size_t place);
};

/* All but the reserved bytes. */
static const struct row rows[] = {
    {MARK, 1, "size mark", say_size},
    {UID, UID_BYTES, "UID, lowest byte first", say_uid},
    {AFI, 1, "AFI", say_byte},
    {DSFID, 1, "DSFID", say_byte},
    {LOCKS, 1, "lock byte", say_locks},
    {12, 1, "protection byte RFA1SS", say_rights},
    {13, 1, "area end ENDA1", say_end},
    {14, 1, "protection byte RFA2SS", say_rights},
    {15, 1, "area end ENDA2", say_end},
    {16, 1, "protection byte RFA3SS", say_rights},
    {17, 1, "area end ENDA3", say_end},
    {18, 1, "protection byte RFA4SS", say_rights},
    {19, 8, "password 0", say_password},
    {27, 8, "password 1", say_password},
    {35, 8, "password 2", say_password},
    {43, 8, "password 3", say_password},
};

static void print_places(size_t place, size_t count)
{
    char text[48];
    if (count > 1)
        snprintf(text, sizeof text, "%zu to %zu", place, place + count - 1);
    else
        snprintf(text, sizeof text, "%zu", place);
    printf("%-10s", text);
}

/* Passwords are secrets. */
static void print_bytes(const struct listing *l, size_t place, size_t count)
{
    if (place >= PASSWORDS && place < RESERVED) {
        printf("%-*s", 2 * ROW_BYTES, "not shown");
        return;
    }
    print_hex(l->image->bytes + place, count);
    printf("%*s", (int)(2 * (ROW_BYTES - count)), "");
}

static void print_row(const struct listing *l, const struct row *r)
{
    print_places(r->place, r->count);
    print_bytes(l, r->place, r->count);
    printf("  %-24s", r->name);
    if (r->place == l->fault)
        printf("<-- %s: %s", refusal_number(l->result).text, fault_of(l->image, l->result).text);
    else
        r->say(l, r->place);
    putchar('\n');
}

/* A byte at fault has a row of its own. */
static void print_reserved(const struct listing *l)
{
    struct row r = {.place = RESERVED, .say = say_reserved};
    for (; r.place < HEADER; r.place += r.count) {
        size_t end = r.place + ROW_BYTES < HEADER ? r.place + ROW_BYTES : HEADER;
        if (r.place <= l->fault && l->fault < end)
            end = r.place < l->fault ? l->fault : l->fault + 1;
        r.count = end - r.place;
        r.name = r.count > 1 ? "reserved bytes" : "reserved byte";
        print_row(l, &r);
    }
}

static void print_listing(const struct listing *l)
{
    printf("%-10s%-*s  %-24s%s\n", "place", 2 * ROW_BYTES, "bytes", "what it is", "what it says");
    for (size_t i = 0; i < sizeof rows / sizeof *rows; i++)
        print_row(l, &rows[i]);
    print_reserved(l);
    if (l->fault == NO_FAULT)
        printf("the header breaks no rule\n");
    else
        printf("the lowest byte at fault is at place %zu; those after it are not judged\n", l->fault);
}

/* ---- the command */

/* What is listed stands before what is said on standard error. */
static enum status list(const char *path, const struct image *image)
{
    struct tag tag;
    struct listing l = {.image = image, .size = size_of(image), .result = load_result(image, &tag), .fault = NO_FAULT};
    if (is_header_fault(l.result))
        l.fault = uistermo_place(l.result);
    else if (uistermo_refusal(l.result))
        return refused_load(path, image, l.result);
    print_listing(&l);
    enum status status = flush_output();
    return status == DONE && l.fault != NO_FAULT ? refused_load(path, image, l.result) : status;
}

static enum status run(const struct command *self, char **words, int count)
{
    struct image image;
    enum status status = one_image(self, words, count);
    if (status == DONE)
        status = read_file(words[0], image.bytes, sizeof image.bytes, &image.length);
    return status == DONE ? list(words[0], &image) : status;
}

const struct command header_command = {
    .name = "header",
    .words = "IMAGE",
    .about = "lists the bytes of an image's header, and marks the one at fault",
    .help = help,
    .run = run,
};
