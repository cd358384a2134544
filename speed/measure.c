/*
 * Makes the calls of one mix, by the proved library, by plain C, or by the floor that any implementation of the tag pays. speed/run builds it and
 * counts its instructions. x86-64 only.
 *
 *   measure compiler            prints the version of the compiler
 *   measure MIX TAG name        prints how many calls the mix has, and its name; MIX is a to r, TAG is 16 or 64 (Kbit), 64 alone for c
 *   measure MIX TAG search      prints how many tags a search has, and how many requests it sends; MIX is j to r
 *   measure MIX TAG SUBJECT N   makes the mix N times; SUBJECT is library, plain, floor or none
 *   measure MIX TAG time        prints the CPU time of an event in ns: floor, plain C, library
 *
 * Before anything is counted or timed, the library makes each call of the mix twice beside plain C, and results, record, memory, room, image and
 * list must be equal to the byte. The floor is the CRC of request and answer, by a table of 256 numbers, and one copy of the answer; for loading and
 * saving one copy of the image; for a factory tag one filling of memory and of a header's bytes in the record. None is only `ret`: what it costs
 * is the loop's; so is the floor of a search, which has none.
 * Exit status: 0 all was done, 1 library and plain C differ or a mix does not do what it is for, 2 a wrong word.
 */
#define _POSIX_C_SOURCE 200809L
#include <stdbool.h>
#include <stdio.h>
#include <stdlib.h>
#include <string.h>
#include <time.h>

#include "plain.h"
#include "uistermo.h"

#define RUNS 25    /* of each subject, for the best time */
#define RUN_NS 2e6 /* a run makes the mix for about so long */

/* ---- tags and calls */

static const struct size {
    const char *name;
    uint8_t mark, ends[3]; /* ENDA1 to ENDA3 */
    size_t memory, image;
} sizes[] = {
    {"16", UISTERMO_MARK_16K, {12, 30, 50}, UISTERMO_MEMORY_16K, UISTERMO_IMAGE_16K},
    {"64", UISTERMO_MARK_64K, {12, 100, 200}, UISTERMO_MEMORY_64K, UISTERMO_IMAGE_64K},
};
static const struct size *size;

/* What a host lends. Aligned, so that a copy costs the same wherever the program is linked. */
struct lent {
    _Alignas(64) uint8_t record[UISTERMO_RECORD];
    _Alignas(64) uint8_t memory[UISTERMO_MEMORY_64K];
    _Alignas(64) uint8_t room[UISTERMO_ROOM];
    _Alignas(64) uint8_t image[UISTERMO_IMAGE_64K];
    _Alignas(64) uint64_t list[UISTERMO_TAGS + 1];
};
static struct lent measured, beside; /* beside: what plain C makes of the same calls */
static _Alignas(64) uint8_t source[UISTERMO_IMAGE_64K]; /* the image that is loaded */
static const uint64_t uid = 0xE002230401D6C8F7; /* of a factory tag; the image's too */
enum { MOST_UIDS = 1000000 };
static _Alignas(64) uint64_t uids[MOST_UIDS]; /* of the tags that are searched */

enum { LOAD = UISTERMO_REQUEST + 1, SAVE, FACTORY, SEARCH }; /* beside the kinds of events */

struct call {
    uint32_t kind;
    size_t length, answered;
    _Alignas(64) uint8_t frame[32];
    _Alignas(64) uint8_t answer[UISTERMO_ROOM]; /* as plain C gave it */
};
static struct call calls[17];
static size_t count;
static const struct call *now; /* the call that is being made */

/* Mix (a) comes first. One without a request loads and saves an image, makes a factory tag, or searches tags. */
static const struct mix {
    const char *name;
    const char *request; /* hex without CRC */
    bool damaged;        /* the CRC is wrong */
    bool factory;        /* a factory tag is made */
    int ends;            /* ends of frame after the request */
    size_t answered;     /* the length of its answers; of a search, its requests */
    bool search;         /* tags are searched */
    bool pairs;          /* their UIDs are alike in 60 bits, by twos; */
    bool row;            /* or each is one more than the one before; else they are any */
    size_t tags, room;   /* so many, and so many entries are lent as the list */
    uint32_t refused;    /* with this number */
} mixes[] = {
    {.name = "read one block", .request = "022005", .answered = 7},
    {.name = "read 32 blocks", .request = "0223001F", .answered = 131},
    {.name = "read 2,048 blocks with status", .request = "42330000FF07", .answered = 10243},
    {.name = "write 4 blocks", .request = "022410030102030405060708090A0B0C0D0E0F10", .answered = 3},
    {.name = "present a wrong password", .request = "02B302010102030405060708", .answered = 4},
    {.name = "inventory of 16 slots, mean of 17 events", .request = "060100", .ends = 16, .answered = 12},
    {.name = "a damaged frame of 12 bytes", .request = "2220F7C8D601042302E0", .damaged = true},
    {.name = "load and save an image, mean of both"},
    {.name = "make a factory tag", .factory = true},
    {.name = "search of 16 tags", .search = true, .tags = 16, .room = 16, .answered = 6},
    {.name = "search of 64 tags", .search = true, .tags = 64, .room = 64, .answered = 25},
    {.name = "search of 256 tags", .search = true, .tags = 256, .room = 256, .answered = 88},
    {.name = "search of 256 tags, pairs alike in 60 bits", .search = true, .pairs = true, .tags = 256, .room = 256, .answered = 1809},
    {.name = "search of 256 tags, UIDs in a row", .search = true, .row = true, .tags = 256, .room = 256, .answered = 17},
    {.name = "16 tags, no room for the list", .search = true, .tags = 16, .refused = UISTERMO_REFUSED_SMALL},
    {.name = "64 tags, no room for the list", .search = true, .tags = 64, .refused = UISTERMO_REFUSED_SMALL},
    {.name = "256 tags, no room for the list", .search = true, .tags = 256, .refused = UISTERMO_REFUSED_SMALL},
    {.name = "1,000,000 tags, refused", .search = true, .tags = MOST_UIDS, .room = UISTERMO_TAGS, .refused = UISTERMO_REFUSED_TAGS},
};
enum { MIXES = sizeof mixes / sizeof *mixes };
static const struct mix *mix;

static void die(const char *what)
{
    fprintf(stderr, "measure: %s: %s\n", mix->name, what);
    exit(1);
}

/* ---- who makes a call */

typedef __typeof__(uistermo_event) event_call;
typedef __typeof__(uistermo_load) load_call;
typedef __typeof__(uistermo_save) save_call;
typedef __typeof__(uistermo_factory) factory_call;
typedef __typeof__(uistermo_search) search_call;

static uint64_t floor_event(uint8_t *record, uint8_t *memory, size_t memory_length, uint8_t *room, size_t room_length, uint32_t kind,
                            const uint8_t *frame, size_t frame_length)
{
    (void)record, (void)memory, (void)memory_length, (void)room_length, (void)kind;
    uint64_t sum = 0;
    if (frame_length)
        sum = plain_crc(frame, frame_length - 2);
    if (now->answered) {
        memcpy(room, now->answer, now->answered);
        sum += plain_crc(room, now->answered - 2);
    }
    return sum;
}

static uint64_t floor_load(uint8_t *record, const uint8_t *image, size_t image_length, uint8_t *memory, size_t memory_length)
{
    (void)image_length;
    memcpy(record, image, PLAIN_HEADER);
    memcpy(memory, image + PLAIN_HEADER, memory_length);
    return 0;
}

static uint64_t floor_save(const uint8_t *record, const uint8_t *memory, size_t memory_length, uint8_t *image, size_t image_length)
{
    (void)image_length;
    memcpy(image, record, PLAIN_HEADER);
    memcpy(image + PLAIN_HEADER, memory, memory_length);
    return 0;
}

static uint64_t floor_factory(uint8_t *record, uint64_t number, uint8_t *memory, size_t memory_length)
{
    (void)number;
    memset(record, 0, PLAIN_HEADER);
    memset(memory, 0, memory_length);
    return 0;
}

event_call none_event;
load_call none_load;
save_call none_save;
factory_call none_factory;
search_call none_search;
__asm__(".text\nnone_event:\nnone_load:\nnone_save:\nnone_factory:\nnone_search:\n\tret\n");

enum { FLOOR, PLAIN, LIBRARY, NONE, SUBJECTS };
static const struct subject {
    const char *name;
    event_call *event;
    load_call *load;
    save_call *save;
    factory_call *factory;
    search_call *search;
} subjects[SUBJECTS] = {
    [FLOOR] = {"floor", floor_event, floor_load, floor_save, floor_factory, none_search},
    [PLAIN] = {"plain", plain_event, plain_load, plain_save, plain_factory, plain_search},
    [LIBRARY] = {"library", uistermo_event, uistermo_load, uistermo_save, uistermo_factory, uistermo_search},
    [NONE] = {"none", none_event, none_load, none_save, none_factory, none_search},
};

static uint64_t make(const struct subject *s, struct lent *l, const struct call *c)
{
    now = c;
    if (c->kind == LOAD)
        return s->load(l->record, source, size->image, l->memory, size->memory);
    if (c->kind == SAVE)
        return s->save(l->record, l->memory, size->memory, l->image, size->image);
    if (c->kind == FACTORY)
        return s->factory(l->record, uid, l->memory, size->memory);
    if (c->kind == SEARCH)
        return s->search(uids, mix->tags, l->list, mix->room);
    return s->event(l->record, l->memory, size->memory, l->room, sizeof l->room, c->kind, c->frame, c->length);
}

static void run(const struct subject *s, unsigned long n)
{
    for (; n; n--)
        for (size_t i = 0; i < count; i++)
            make(s, &measured, &calls[i]);
}

/* ---- before them */

/* Four areas, all of which can be read; two are not writable without a password. Block 0 is locked, and the UID's slot is 7. */
static void make_source(void)
{
    const uint8_t header[] = {size->mark, 0xF7, 0xC8, 0xD6, 0x01, 0x04, 0x23, 0x02, 0xE0, 0x07, 0x35, 0x01,
                              0x00, size->ends[0], 0x05, size->ends[1], 0x00, size->ends[2], 0x06};
    memcpy(source, header, sizeof header);
    for (size_t i = 0; i < 32; i++)
        source[sizeof header + i] = (uint8_t)(0xA0 + i); /* passwords */
    for (size_t i = 0; i < size->memory; i++)
        source[PLAIN_HEADER + i] = (uint8_t)(i * 7 + i / 256);
}

/* A number as good as any (splitmix64); the same ones each time. */
static uint64_t any(void)
{
    static uint64_t state = 0;
    uint64_t n = state += 0x9E3779B97F4A7C15;
    n = (n ^ n >> 30) * 0xBF58476D1CE4E5B9;
    n = (n ^ n >> 27) * 0x94D049BB133111EB;
    return n ^ n >> 31;
}

/* Of pairs the lowest byte is the pair's own, so that each is alone with a mask of 8 bits or more: no 256 tags take more requests. */
static void make_uids(void)
{
    for (size_t i = 0; i < mix->tags; i++)
        uids[i] = any();
    for (size_t i = 0; mix->pairs && i < mix->tags; i += 2) {
        uids[i] = uids[i] << 8 | i / 2;
        uids[i + 1] = uids[i] ^ (uint64_t)1 << 63;
    }
    for (size_t i = 1; mix->row && i < mix->tags; i++)
        uids[i] = uids[i - 1] + 1;
}

static struct call *add(uint32_t kind)
{
    calls[count].kind = kind;
    return &calls[count++];
}

static void make_calls(void)
{
    if (mix->factory) {
        add(FACTORY);
        return;
    }
    if (mix->search) {
        make_uids();
        add(SEARCH);
        return;
    }
    if (!mix->request) {
        add(LOAD);
        add(SAVE);
        return;
    }
    struct call *c = add(UISTERMO_REQUEST);
    for (const char *at = mix->request; *at; at += 2)
        c->frame[c->length++] = (uint8_t)strtoul((char[]){at[0], at[1], 0}, NULL, 16);
    uint16_t crc = plain_crc(c->frame, c->length);
    c->frame[c->length++] = (uint8_t)crc;
    c->frame[c->length++] = (uint8_t)(crc >> 8 ^ mix->damaged);
    for (int i = 0; i < mix->ends; i++)
        add(UISTERMO_END_OF_FRAME);
}

/* No byte of record and memory is 0, so that all that a factory tag sets to 0 shows. */
static void overwrite(struct lent *l)
{
    memset(l->record, 0xAA, sizeof l->record);
    memset(l->memory, 0xAA, sizeof l->memory);
}

/* Library and plain C give and leave the same. Keeps the answer for the floor. */
static void check_call(struct call *c)
{
    if (c->kind == FACTORY) {
        overwrite(&beside);
        overwrite(&measured);
    }
    uint64_t plain = make(&subjects[PLAIN], &beside, c), library = make(&subjects[LIBRARY], &measured, c);
    if (plain != library || memcmp(&beside, &measured, sizeof beside) != 0)
        die("library and plain C differ");
    if (uistermo_refusal(plain) != mix->refused)
        die("a call is refused, or is not");
    if (c->kind < LOAD)
        memcpy(c->answer, beside.room, uistermo_length(plain));
    if (c->kind < LOAD || c->kind == SEARCH)
        c->answered = uistermo_length(plain);
}

/* Both load the tag and bring it into the field, but for a search, and then make the mix twice. */
static void check(void)
{
    static struct call load = {.kind = LOAD}, on = {.kind = UISTERMO_ON};
    size_t answered = 0;
    if (!mix->search) {
        check_call(&load);
        check_call(&on);
    }
    for (size_t i = 0; i < 2 * count; i++)
        check_call(&calls[i % count]);
    for (size_t i = 0; i < count; i++)
        answered += calls[i].answered;
    if (answered != mix->answered)
        die(mix->search ? "other requests are sent than the table says" : "the answers have another length");
}

/* ---- times */

static double cpu_ns(void)
{
    struct timespec t;
    if (clock_gettime(CLOCK_PROCESS_CPUTIME_ID, &t) != 0)
        die("no CPU time");
    return 1e9 * (double)t.tv_sec + (double)t.tv_nsec;
}

static double ns_of(const struct subject *s, unsigned long n)
{
    double began = cpu_ns();
    run(s, n);
    return cpu_ns() - began;
}

/* The subjects take turns, so that all of them meet the same machine. */
static void print_times(void)
{
    unsigned long n[NONE];
    double best[NONE];
    for (int s = 0; s < NONE; s++)
        for (n[s] = 1; (best[s] = ns_of(&subjects[s], n[s])) < RUN_NS;)
            n[s] *= 2;
    for (int i = 0; i < RUNS; i++)
        for (int s = 0; s < NONE; s++) {
            double ns = ns_of(&subjects[s], n[s]);
            best[s] = ns < best[s] ? ns : best[s];
        }
    for (int s = 0; s < NONE; s++)
        printf("%.1f%c", best[s] / (double)n[s] / (double)count, s + 1 < NONE ? ' ' : '\n');
}

/* ---- words of the command line */

static void find_mix_and_size(const char *letter, const char *kbit)
{
    for (size_t i = 0; i < MIXES; i++)
        if (letter[0] == (char)('a' + i) && !letter[1])
            mix = &mixes[i];
    for (size_t i = 0; i < sizeof sizes / sizeof *sizes; i++)
        if (strcmp(kbit, sizes[i].name) == 0)
            size = &sizes[i];
}

static const struct subject *find_subject(const char *name)
{
    for (size_t i = 0; i < SUBJECTS; i++)
        if (strcmp(name, subjects[i].name) == 0)
            return &subjects[i];
    return NULL;
}

int main(int words, char **word)
{
    if (words == 2 && strcmp(word[1], "compiler") == 0)
        return puts(__VERSION__) < 0;
    if (words >= 4)
        find_mix_and_size(word[1], word[2]);
    if (!mix || !size)
        return 2;
    make_source();
    make_calls();
    if (strcmp(word[3], "name") == 0)
        return printf("%zu %s\n", count, mix->name) < 0;
    if (mix->search && strcmp(word[3], "search") == 0) {
        check();
        return printf("%zu %zu\n", mix->tags, mix->answered) < 0;
    }
    const struct subject *s = find_subject(word[3]);
    bool timed = strcmp(word[3], "time") == 0;
    char *rest = "";
    unsigned long n = words == 5 ? strtoul(word[4], &rest, 10) : 0;
    if (timed ? words != 4 : !s || !n || *rest || word[4][0] == '-')
        return 2;
    check();
    if (timed)
        print_times();
    else
        run(s, n);
    return 0;
}
