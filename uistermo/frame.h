/*
 * Bytes as they travel: the CRC of a frame, a UID, and bytes in hex.
 */
#ifndef FRAME_H
#define FRAME_H

#include <stddef.h>
#include <stdint.h>

enum { CRC_BYTES = 2, UID_BYTES = 8 };

/* Puts the CRC after so many bytes, and gives how many there are with it. */
size_t add_crc(uint8_t *frame, size_t length);

/* A UID from its bytes as they travel, lowest first. */
uint64_t uid_at(const uint8_t *bytes);

/* Prints bytes in upper-case hex. */
void print_hex(const uint8_t *bytes, size_t length);

#endif
