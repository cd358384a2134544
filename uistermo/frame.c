/* Bytes as they travel. Quoted words are document 01's. */
#include "frame.h"

#include <stdio.h>

/* "reflected polynomial 8408h, start FFFFh, complemented" */
static uint16_t crc(const uint8_t *bytes, size_t length)
{
    uint16_t sum = 0xFFFF;
    for (size_t i = 0; i < length; i++) {
        sum ^= bytes[i];
        for (int bit = 0; bit < 8; bit++)
            sum = (uint16_t)(sum & 1 ? sum >> 1 ^ 0x8408 : sum >> 1);
    }
    return (uint16_t)~sum;
}

/* "low byte first" */
size_t add_crc(uint8_t *frame, size_t length)
{
    uint16_t sum = crc(frame, length);
    frame[length] = (uint8_t)sum;
    frame[length + 1] = (uint8_t)(sum >> 8);
    return length + CRC_BYTES;
}

uint64_t uid_at(const uint8_t *bytes)
{
    uint64_t uid = 0;
    for (int i = UID_BYTES; i-- > 0;)
        uid = uid << 8 | bytes[i];
    return uid;
}

void print_hex(const uint8_t *bytes, size_t length)
{
    static const char digits[] = "0123456789ABCDEF";
    for (size_t i = 0; i < length; i++) {
        putchar(digits[bytes[i] >> 4]);
        putchar(digits[bytes[i] & 15]);
    }
}
