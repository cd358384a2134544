/*
 * uistermo.h: a proved ST25TV16KC or ST25TV64KC tag for a host in C.
 *
 * Link target/staticlib/libcabi.a, which tools/link-c proves and writes (x86-64), from the crate cabi_c. examples/host.c is the shortest
 * host, uistermo/ one that keeps tags in image files.
 * What each call returns and leaves is proved for every input: crates/cabi/specs/Calls.antt says it, and this page says it in C.
 *
 * The host keeps three buffers for a tag and lends them to each call:
 *   record   UISTERMO_RECORD bytes, made by uistermo_factory or uistermo_load and updated by each event. To the host they are closed;
 *            crates/packed/specs/Bytes.antt has their layout. They can be copied and kept, and hold the passwords in plain bytes.
 *   memory   the tag's user memory. Its length alone says which size of tag it is.
 *   room     where an answer is written, UISTERMO_ROOM bytes or more.
 * For a search of many tags it keeps two lists of UIDs, which are no bytes but numbers of 64 bits: those of the tags, and those found.
 *
 * What the host owes:
 * - A pointer points to as many bytes as the length after it says, and record to UISTERMO_RECORD; uids and list to as many entries of 8
 *   bytes, aligned for uint64_t. With length 0 the pointer may be NULL.
 * - The buffers of one call do not overlap.
 * - No other thread touches them during the call.
 * That is all. Any bytes, lengths and numbers are taken: what does not fit is refused, and bytes that are no record are refusal 3.
 *
 * The library keeps nothing between calls, allocates nothing, and calls nothing outside itself but memset, which uistermo_factory fills the
 * memory with. Each call ends, and may come from any thread.
 */
#ifndef UISTERMO_H
#define UISTERMO_H

#include <stddef.h>
#include <stdint.h>

#ifdef __cplusplus
extern "C" {
#endif

/* The length of a record. A later version may lengthen it: write this name, not the number. */
#define UISTERMO_RECORD 72

/* The two sizes of tag: size mark (byte 0 of an image), memory, image (a header and the memory). */
#define UISTERMO_MARK_16K 1
#define UISTERMO_MARK_64K 2
#define UISTERMO_MEMORY_16K 2048
#define UISTERMO_MEMORY_64K 8192
#define UISTERMO_IMAGE_16K 2112
#define UISTERMO_IMAGE_64K 8256

/* The least room of an event, for both sizes: the longest answer, 2,048 blocks with status, is 1 + 2,048 * 5 + 2 bytes. */
#define UISTERMO_ROOM 10243

/* The most tags of a search. */
#define UISTERMO_TAGS 256

/* Kinds of events. */
#define UISTERMO_ON 0           /* field on */
#define UISTERMO_OFF 1          /* field off */
#define UISTERMO_END_OF_FRAME 2 /* an end of frame: the next slot of a round, or the call for a held answer */
#define UISTERMO_REQUEST 3      /* a frame */

/* Refusals. Document 02's 5a to 5e, of an image's header, are 5Ah to 5Eh; each comes with "the lowest offending byte's place". */
#define UISTERMO_NONE 0                  /* not refused */
#define UISTERMO_REFUSED_MEMORY 1        /* user memory lent is not 2,048 or 8,192 bytes, or does not fit the image's length */
#define UISTERMO_REFUSED_ROOM 2          /* answer room is below 10,243 bytes */
#define UISTERMO_REFUSED_RECORD 3        /* tag record breaks a record rule, or the bytes are no record of the memory's size */
#define UISTERMO_REFUSED_IMAGE 4         /* image is not 2,112 or 8,256 bytes */
#define UISTERMO_REFUSED_MARK 0x5A       /* size mark: byte 0 does not fit the image's length */
#define UISTERMO_REFUSED_LOCK 0x5B       /* lock byte: a bit of byte 11 that locks nothing, 5 to 7, is not 0 */
#define UISTERMO_REFUSED_PROTECTION 0x5C /* protection byte: an RFAiSS, byte 12, 14, 16 or 18, is above 0Fh */
#define UISTERMO_REFUSED_END 0x5D        /* area end: an ENDAi, byte 13, 15 or 17, is above E; or, the end before it being below E, */
                                         /* not above that; or, the end before it being E, not E */
#define UISTERMO_REFUSED_RESERVED 0x5E   /* reserved byte: one of the bytes 51 to 63 is not 0 */
#define UISTERMO_REFUSED_TAGS 6          /* more than 256 tags */
#define UISTERMO_REFUSED_EQUAL 7         /* two UIDs are equal */
#define UISTERMO_REFUSED_SMALL 18        /* the list's room is too small for all */

/*
 * A result is place * 2^48 + refusal number * 2^32 + length. A call that refuses has length 0 and leaves every byte of record and buffers as it was.
 * The place is that of a byte of the image, counted from 0. It comes with 5a to 5e, where it may be 0; with every other result it is 0, and means
 * nothing.
 * Earlier versions gave 5 alone for 5a to 5e, and no place; their uistermo_refusal took all upper bits. A host compiled with their header is to be
 * compiled anew.
 */
static inline uint32_t uistermo_refusal(uint64_t result) { return (uint32_t)(result >> 32 & 0xFFFF); }
static inline size_t uistermo_place(uint64_t result) { return (size_t)(result >> 48); }
static inline size_t uistermo_length(uint64_t result) { return (size_t)(result & 0xFFFFFFFF); }

/*
 * An event. The answer fills the first bytes of room, as many as the length of the result says, and the rest of room stays. Length 0 is
 * silence. The record is the next one, also after silence; a write changes memory. A frame is the bytes on the air from the flags on, its
 * CRC included; there is no upper limit on its length, and only UISTERMO_REQUEST looks at it.
 * Checks 1, 2, 3 in that order. Another kind than those above is no event: after the checks, silence, and nothing is changed.
 */
uint64_t uistermo_event(uint8_t record[UISTERMO_RECORD], uint8_t *memory, size_t memory_length, uint8_t *room, size_t room_length,
                        uint32_t kind, const uint8_t *frame, size_t frame_length);

/*
 * Loads an image: fills memory and makes the record, with the field off. The bytes that were in record do not matter. The length is 0.
 * Checks 4, 1, then 5a to 5e: of all bytes of the header that are wrong the lowest is named, by its letter and its place. Document 02: "An end
 * above E is charged to its own byte, a wrong pair to the later byte."; E is 63 or 255, by the image's length.
 */
uint64_t uistermo_load(uint8_t record[UISTERMO_RECORD], const uint8_t *image, size_t image_length, uint8_t *memory, size_t memory_length);

/*
 * Saves an image: fills image with the lasting parts of the record (not the field, state, session, round and held answer) and the memory.
 * The length is the image's. Checks 4, 1, 3 in that order.
 */
uint64_t uistermo_save(const uint8_t record[UISTERMO_RECORD], const uint8_t *memory, size_t memory_length, uint8_t *image,
                       size_t image_length);

/*
 * Makes a factory tag of the memory's size, with the field off: fills memory with zeros and makes the record, for a UID whose lowest byte
 * travels first. The bytes that were in record and memory do not matter. The length is 0. Checks 1: "user memory lent is not 2,048 or 8,192
 * bytes".
 * The call of this name in earlier versions took a size mark and no memory, and gave 1 for success; this one gives 0, as every call here
 * that is not refused and has no length.
 */
uint64_t uistermo_factory(uint8_t record[UISTERMO_RECORD], uint64_t uid, uint8_t *memory, size_t memory_length);

/*
 * Finds every tag on a tray: up to UISTERMO_TAGS tags, all Ready, given by their UIDs. It asks with 16 slots; a slot with two or more answers
 * is a collision, and the search goes again with the mask longer by that slot's four bits. The UIDs found fill the first entries of list, as
 * many as there are tags, each once, in ascending order of the UID's four-bit groups taken from the lowest; the entries after them stay.
 * The length is the number of Inventory requests sent: 1 where there are no tags, and for n tags at most 1 + 15 * (n / 2).
 * Checks 6, 7, 18 in that order; refused, the list stays and the length is 0. A UID is any number, its lowest byte the one that travels
 * first. The search keeps nothing and needs no memory beside the list; it goes at most 16 requests deep.
 */
uint64_t uistermo_search(const uint64_t *uids, size_t count, uint64_t *list, size_t list_room);

#ifdef __cplusplus
}
#endif

#endif
