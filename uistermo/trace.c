/* The picture of a search: each request goes to each tag as an event, and what is printed is what they answered. Quoted words are the documents'. */
#include <inttypes.h>
#include <stdio.h>

#include "frame.h"
#include "tray.h"

enum { SLOTS = 16, SLOT_BITS = 4 };      /* "with 16 slots"; "the next four UID bits are the slot" */
enum { FLAGS = 0x06, INVENTORY = 0x01 }; /* high data rate and Inventory_flag; its code */
enum { BEFORE_MASK = 3, FRAME = BEFORE_MASK + UID_BYTES + CRC_BYTES };
enum { UID = 2 }; /* of an answer: "00h, DSFID, UID, CRC" */
enum { INDENT = 2 };

struct picture {
    struct tray *tray;
    unsigned requests; /* so many are sent */
    uint8_t room[UISTERMO_ROOM];
};

struct request {
    uint64_t mask;
    int bits; /* the mask's length */
    uint8_t frame[FRAME];
    size_t length;
};

struct slot {
    size_t answers;
    uint64_t uid; /* the one answered last */
};

/* "mask length, then mask bytes (length over 8, rounded up ..)" */
static struct request request_of(uint64_t mask, int bits)
{
    struct request r = {.mask = mask, .bits = bits, .frame = {FLAGS, INVENTORY, (uint8_t)bits}, .length = BEFORE_MASK};
    for (int i = 0; i < bits; i += 8)
        r.frame[r.length++] = (uint8_t)(mask >> i);
    r.length = add_crc(r.frame, r.length);
    return r;
}

/* ---- what is heard */

static enum status event(struct picture *p, struct tag *tag, uint32_t kind, const struct request *r, struct slot *heard)
{
    uint64_t result = uistermo_event(tag->record, tag->memory, tag->size, p->room, sizeof p->room, kind, r ? r->frame : NULL, r ? r->length : 0);
    if (uistermo_refusal(result))
        return refused("tray", result, "");
    if (uistermo_length(result) > 0) {
        heard->answers++;
        heard->uid = uid_at(p->room + UID);
    }
    return DONE;
}

/* "slot 0 speaks at once and each end of frame moves one slot on" */
static enum status hear_tag(struct picture *p, struct tag *tag, const struct request *r, struct slot slots[SLOTS])
{
    enum status status = event(p, tag, UISTERMO_REQUEST, r, &slots[0]);
    for (int i = 1; status == DONE && i < SLOTS; i++)
        status = event(p, tag, UISTERMO_END_OF_FRAME, NULL, &slots[i]);
    return status;
}

static enum status hear(struct picture *p, const struct request *r, struct slot slots[SLOTS])
{
    enum status status = DONE;
    for (size_t i = 0; status == DONE && i < p->tray->count; i++)
        status = hear_tag(p, &p->tray->tags[i], r, slots);
    return status;
}

/* ---- the picture */

/* Where nothing more can be written no further request is sent. */
static enum status print_request(const struct request *r, unsigned number, const struct slot slots[SLOTS])
{
    printf("request %u ", number);
    print_hex(r->frame, r->length);
    if (r->bits > 0)
        printf(" mask %0*" PRIX64, r->bits / SLOT_BITS, r->mask);
    else
        printf(" mask -");
    printf(" slots ");
    for (int i = 0; i < SLOTS; i++)
        putchar(slots[i].answers == 0 ? '.' : slots[i].answers == 1 ? '1' : '*');
    putchar('\n');
    return ferror(stdout) ? flush_output() : DONE;
}

/* "a slot with two or more answers is a collision, and the search goes again with the mask longer by that slot's four bits" */
static enum status print_asked(struct picture *p, uint64_t mask, int bits)
{
    struct request r = request_of(mask, bits);
    struct slot slots[SLOTS] = {{0, 0}};
    enum status status = hear(p, &r, slots);
    if (status == DONE)
        status = print_request(&r, ++p->requests, slots);
    for (int i = 0; status == DONE && i < SLOTS; i++) {
        if (slots[i].answers == 0)
            continue;
        printf("%*sslot %d ", INDENT * (bits / SLOT_BITS + 1), "", i);
        if (slots[i].answers == 1) {
            printf("%s\n", uid_digits(slots[i].uid).text);
        } else {
            printf("collision, ");
            status = print_asked(p, mask | (uint64_t)i << bits, bits + SLOT_BITS);
        }
    }
    return status;
}

enum status print_trace(struct tray *t)
{
    struct picture p = {.tray = t};
    struct slot nobody = {0, 0}; /* "field on gives Ready", with no answer */
    enum status status = DONE;
    for (size_t i = 0; status == DONE && i < t->count; i++)
        status = event(&p, &t->tags[i], UISTERMO_ON, NULL, &nobody);
    return status == DONE ? print_asked(&p, 0, 0) : status;
}
