/*
 * plain.h: the tag of uistermo.h in plain C, as one would write it by hand, without proofs.
 * It is a measure of speed, never a source of answers.
 *
 * The calls have the signatures, results, refusals, records and images of uistermo.h.
 */
#ifndef PLAIN_H
#define PLAIN_H

#include "uistermo.h"

/* The length of an image's header. A record begins with the same bytes. */
enum { PLAIN_HEADER = UISTERMO_IMAGE_16K - UISTERMO_MEMORY_16K };

uint64_t plain_event(uint8_t record[UISTERMO_RECORD], uint8_t *memory, size_t memory_length, uint8_t *room, size_t room_length,
                     uint32_t kind, const uint8_t *frame, size_t frame_length);

uint64_t plain_load(uint8_t record[UISTERMO_RECORD], const uint8_t *image, size_t image_length, uint8_t *memory, size_t memory_length);

uint64_t plain_save(const uint8_t record[UISTERMO_RECORD], const uint8_t *memory, size_t memory_length, uint8_t *image,
                    size_t image_length);

uint64_t plain_factory(uint8_t record[UISTERMO_RECORD], uint64_t uid, uint8_t *memory, size_t memory_length);

uint64_t plain_search(const uint64_t *uids, size_t count, uint64_t *list, size_t list_room);

/* The CRC of ISO/IEC 15693; it travels low byte first. */
uint16_t plain_crc(const uint8_t *bytes, size_t n);

#endif
