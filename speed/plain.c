/*
 * The tag in plain C: what one would write by hand, without proofs. plain.h says what it is for.
 * It uses the record where it lies, and trusts that the buffers of a call do not overlap and that their lengths are true.
 */
#define _DEFAULT_SOURCE /* endian.h: le16toh, le64toh, htole64 */
#include <assert.h>
#include <endian.h>
#include <stdbool.h>
#include <string.h>

#include "plain.h"

/* Error codes of the tag; 0 stands for success. */
enum {
    OK = 0,
    NOT_SUPPORTED = 0x02,
    BAD_OPTION = 0x03,
    FAILED = 0x0F,
    NOT_AVAILABLE = 0x10,
    ALREADY_LOCKED = 0x11,
    LOCKED = 0x12,
    BAD_VALUE = 0x13,
    NOT_LOCKABLE = 0x14,
    PROTECTED = 0x15
};
#define ERRORS (1 << 0x02 | 1 << 0x03 | 1 << 0x0F | 1 << 0x10 | 1 << 0x11 | 1 << 0x12 | 1 << 0x13 | 1 << 0x14 | 1 << 0x15)

enum { READY, QUIET, SELECTED };
enum { LOCK_AFI = 0x04, LOCK_DSFID = 0x08, LOCK_CFG = 0x10 }; /* bits 0 and 1 are blocks 0 and 1 */
enum { HELD_NONE, HELD_SUCCESS, HELD_ERROR };

/* Flags of a request. Bits 5 and 6 mean other things for an Inventory. */
enum { INVENTORY = 0x04, RESERVED = 0x88, SELECT = 0x10, ADDRESS = 0x20, OPTION = 0x40, HAS_AFI = 0x10, ONE_SLOT = 0x20 };

/* The record's bytes, named. All are single bytes, so that a record that was checked is used where it lies. */
struct tag {
    uint8_t mark, uid[8], afi, dsfid, locks;
    uint8_t reg[7]; /* RFA1SS, ENDA1, RFA2SS, ENDA2, RFA3SS, ENDA3, RFA4SS */
    uint8_t password[4][8];
    uint8_t zero[13]; /* the end of the image's header */
    uint8_t field, state;
    uint8_t session; /* 0 none, else 1 + the password's number */
    uint8_t round, slot, mask_len;
    uint8_t held, held_code;
};
static_assert(sizeof(struct tag) == UISTERMO_RECORD && _Alignof(struct tag) == 1, "the struct is the record");
static_assert(offsetof(struct tag, field) == PLAIN_HEADER, "a record begins with an image's header");

/* ---- bytes */

static inline uint32_t get16(const uint8_t *p)
{
    uint16_t v;
    memcpy(&v, p, 2);
    return le16toh(v);
}

static inline uint64_t get64(const uint8_t *p)
{
    uint64_t v;
    memcpy(&v, p, 8);
    return le64toh(v);
}

static inline void put64(uint8_t *p, uint64_t v)
{
    v = htole64(v);
    memcpy(p, &v, 8);
}

static const uint16_t crc_table[256] = {
    0x0000, 0x1189, 0x2312, 0x329B, 0x4624, 0x57AD, 0x6536, 0x74BF, 0x8C48, 0x9DC1, 0xAF5A, 0xBED3,
    0xCA6C, 0xDBE5, 0xE97E, 0xF8F7, 0x1081, 0x0108, 0x3393, 0x221A, 0x56A5, 0x472C, 0x75B7, 0x643E,
    0x9CC9, 0x8D40, 0xBFDB, 0xAE52, 0xDAED, 0xCB64, 0xF9FF, 0xE876, 0x2102, 0x308B, 0x0210, 0x1399,
    0x6726, 0x76AF, 0x4434, 0x55BD, 0xAD4A, 0xBCC3, 0x8E58, 0x9FD1, 0xEB6E, 0xFAE7, 0xC87C, 0xD9F5,
    0x3183, 0x200A, 0x1291, 0x0318, 0x77A7, 0x662E, 0x54B5, 0x453C, 0xBDCB, 0xAC42, 0x9ED9, 0x8F50,
    0xFBEF, 0xEA66, 0xD8FD, 0xC974, 0x4204, 0x538D, 0x6116, 0x709F, 0x0420, 0x15A9, 0x2732, 0x36BB,
    0xCE4C, 0xDFC5, 0xED5E, 0xFCD7, 0x8868, 0x99E1, 0xAB7A, 0xBAF3, 0x5285, 0x430C, 0x7197, 0x601E,
    0x14A1, 0x0528, 0x37B3, 0x263A, 0xDECD, 0xCF44, 0xFDDF, 0xEC56, 0x98E9, 0x8960, 0xBBFB, 0xAA72,
    0x6306, 0x728F, 0x4014, 0x519D, 0x2522, 0x34AB, 0x0630, 0x17B9, 0xEF4E, 0xFEC7, 0xCC5C, 0xDDD5,
    0xA96A, 0xB8E3, 0x8A78, 0x9BF1, 0x7387, 0x620E, 0x5095, 0x411C, 0x35A3, 0x242A, 0x16B1, 0x0738,
    0xFFCF, 0xEE46, 0xDCDD, 0xCD54, 0xB9EB, 0xA862, 0x9AF9, 0x8B70, 0x8408, 0x9581, 0xA71A, 0xB693,
    0xC22C, 0xD3A5, 0xE13E, 0xF0B7, 0x0840, 0x19C9, 0x2B52, 0x3ADB, 0x4E64, 0x5FED, 0x6D76, 0x7CFF,
    0x9489, 0x8500, 0xB79B, 0xA612, 0xD2AD, 0xC324, 0xF1BF, 0xE036, 0x18C1, 0x0948, 0x3BD3, 0x2A5A,
    0x5EE5, 0x4F6C, 0x7DF7, 0x6C7E, 0xA50A, 0xB483, 0x8618, 0x9791, 0xE32E, 0xF2A7, 0xC03C, 0xD1B5,
    0x2942, 0x38CB, 0x0A50, 0x1BD9, 0x6F66, 0x7EEF, 0x4C74, 0x5DFD, 0xB58B, 0xA402, 0x9699, 0x8710,
    0xF3AF, 0xE226, 0xD0BD, 0xC134, 0x39C3, 0x284A, 0x1AD1, 0x0B58, 0x7FE7, 0x6E6E, 0x5CF5, 0x4D7C,
    0xC60C, 0xD785, 0xE51E, 0xF497, 0x8028, 0x91A1, 0xA33A, 0xB2B3, 0x4A44, 0x5BCD, 0x6956, 0x78DF,
    0x0C60, 0x1DE9, 0x2F72, 0x3EFB, 0xD68D, 0xC704, 0xF59F, 0xE416, 0x90A9, 0x8120, 0xB3BB, 0xA232,
    0x5AC5, 0x4B4C, 0x79D7, 0x685E, 0x1CE1, 0x0D68, 0x3FF3, 0x2E7A, 0xE70E, 0xF687, 0xC41C, 0xD595,
    0xA12A, 0xB0A3, 0x8238, 0x93B1, 0x6B46, 0x7ACF, 0x4854, 0x59DD, 0x2D62, 0x3CEB, 0x0E70, 0x1FF9,
    0xF78F, 0xE606, 0xD49D, 0xC514, 0xB1AB, 0xA022, 0x92B9, 0x8330, 0x7BC7, 0x6A4E, 0x58D5, 0x495C,
    0x3DE3, 0x2C6A, 0x1EF1, 0x0F78,
};

uint16_t plain_crc(const uint8_t *bytes, size_t n)
{
    uint32_t crc = 0xFFFF;
    for (const uint8_t *end = bytes + n; bytes != end; bytes++)
        crc = crc >> 8 ^ crc_table[(crc ^ *bytes) & 0xFF];
    return (uint16_t)~crc;
}

/* ---- refusals */

static uint64_t refuse(uint64_t number) { return number << 32; }

static uint64_t refuse_at(uint64_t number, uint64_t place) { return place << 48 | number << 32; }

/* ---- the record */

/* A header as an image and a record have it, for a tag whose greatest area end is `e`. */
static bool header_good(const uint8_t *h, uint8_t mark, uint8_t e)
{
    const uint8_t *reg = h + 12;
    if (h[0] != mark || h[11] > 0x1F || (get64(h + 51) | get64(h + 56)) != 0)
        return false;
    if ((reg[0] | reg[2] | reg[4] | reg[6]) > 0x0F)
        return false;
    if (reg[1] > e || reg[3] > e || reg[5] > e)
        return false;
    for (int i = 1; i < 5; i += 2)
        if (reg[i] < e ? reg[i + 2] <= reg[i] : reg[i + 2] != e)
            return false;
    return true;
}

/* The end of an area against E, and against the end before it. */
static bool end_good(const uint8_t *h, size_t place, uint8_t e)
{
    uint8_t end = h[place], before = h[place - 2];
    return end <= e && (place == 13 || (before < e ? end > before : end == e));
}

/* The result for a header that is not good: the lowest byte that is wrong. */
static uint64_t header_fault(const uint8_t *h, uint8_t mark, uint8_t e)
{
    if (h[0] != mark)
        return refuse_at(UISTERMO_REFUSED_MARK, 0);
    if (h[11] > 0x1F)
        return refuse_at(UISTERMO_REFUSED_LOCK, 11);
    for (size_t i = 12; i < 19; i += 2) {
        if (h[i] > 0x0F)
            return refuse_at(UISTERMO_REFUSED_PROTECTION, i);
        if (i < 18 && !end_good(h, i + 1, e))
            return refuse_at(UISTERMO_REFUSED_END, i + 1);
    }
    size_t place = 51;
    while (h[place] == 0)
        place++;
    return refuse_at(UISTERMO_REFUSED_RESERVED, place);
}

/* The eight bytes after the header: field, state, session, round, slot, mask length, held, code. */
static bool passing_good(const uint8_t *p)
{
    if (p[0] == 0)
        return get64(p) == 0;
    if (p[0] > 1 || p[1] > SELECTED || p[2] > 4 || p[3] > 1 || p[6] > HELD_ERROR)
        return false;
    if (p[6] == HELD_ERROR ? p[7] > PROTECTED || !(ERRORS >> p[7] & 1) : p[7] != 0)
        return false;
    if (p[3])
        return p[4] <= 15 && p[5] <= 60 && p[6] == HELD_NONE && p[1] != QUIET;
    return p[4] == 0 && p[5] == 0;
}

static bool header_fits(const uint8_t *h, size_t memory_length)
{
    return memory_length == UISTERMO_MEMORY_16K ? header_good(h, UISTERMO_MARK_16K, 63) : header_good(h, UISTERMO_MARK_64K, 255);
}

static bool record_good(const uint8_t *r, size_t memory_length) { return header_fits(r, memory_length) && passing_good(r + PLAIN_HEADER); }

/* The greatest area end, and the number of blocks; the mark was checked against the memory. */
static inline uint8_t last_end(const struct tag *t)
{
    return t->mark == UISTERMO_MARK_16K ? 63 : 255;
}

static inline uint32_t blocks_of(const struct tag *t)
{
    return (t->mark == UISTERMO_MARK_16K ? UISTERMO_MEMORY_16K : UISTERMO_MEMORY_64K) / 4;
}

static void drop_round(struct tag *t)
{
    t->round = t->slot = t->mask_len = 0;
}

static void drop_held(struct tag *t)
{
    t->held = t->held_code = 0;
}

/* ---- answers: each gives the answer's length */

static size_t finish(uint8_t *room, size_t n)
{
    uint16_t crc = plain_crc(room, n);
    room[n] = (uint8_t)crc;
    room[n + 1] = (uint8_t)(crc >> 8);
    return n + 2;
}

static size_t answer(uint8_t *room, uint8_t code)
{
    room[0] = code != OK;
    room[1] = code;
    return finish(room, code != OK ? 2 : 1);
}

/* ---- areas, numbered from 0 */

static int area_of(const struct tag *t, uint32_t block)
{
    uint32_t eight = block / 8;
    return eight <= t->reg[1] ? 0 : eight <= t->reg[3] ? 1 : eight <= t->reg[5] ? 2 : 3;
}

/* The first block after the area. */
static uint32_t area_end(const struct tag *t, int area)
{
    return area == 3 ? blocks_of(t) : 8 * (uint32_t)t->reg[2 * area + 1] + 8;
}

static bool served(const struct tag *t, uint8_t rfa)
{
    return (rfa & 3) != 0 && t->session == 1 + (rfa & 3);
}

static bool readable(const struct tag *t, int area)
{
    uint8_t rfa = t->reg[2 * area];
    return area == 0 || rfa >> 2 < 2 || served(t, rfa);
}

static bool writable(const struct tag *t, int area)
{
    uint8_t rfa = t->reg[2 * area];
    return rfa >> 2 == 0 || (rfa >> 2 < 3 && served(t, rfa));
}

static bool locked(const struct tag *t, uint32_t block)
{
    return block < 2 && (t->locks >> block & 1);
}

/* ---- reads */

/* An area at a time: all of its blocks have the same rights. */
static size_t read_blocks(const struct tag *t, const uint8_t *memory, uint8_t *room, uint32_t first, uint32_t end,
                          bool with_status)
{
    uint8_t *out = room + 1;
    uint32_t block = first;
    while (block < end) {
        int area = area_of(t, block);
        if (!readable(t, area))
            break;
        uint32_t stop = area_end(t, area) < end ? area_end(t, area) : end;
        if (with_status) {
            uint8_t closed = !writable(t, area);
            for (; block < stop; block++, out += 5) {
                out[0] = closed | locked(t, block);
                memcpy(out + 1, memory + 4 * block, 4);
            }
        } else {
            memcpy(out, memory + 4 * block, 4 * (stop - block));
            out += 4 * (stop - block);
            block = stop;
        }
    }
    if (block == first)
        return answer(room, PROTECTED);
    room[0] = 0;
    return finish(room, (size_t)(out - room));
}

static size_t read_status(const struct tag *t, uint8_t *room, uint32_t first, uint32_t end)
{
    uint8_t *out = room + 1;
    for (uint32_t block = first; block < end;) {
        int area = area_of(t, block);
        uint8_t closed = !writable(t, area);
        uint32_t stop = area_end(t, area) < end ? area_end(t, area) : end;
        for (; block < stop; block++)
            *out++ = closed | locked(t, block);
    }
    room[0] = 0;
    return finish(room, (size_t)(out - room));
}

static size_t read_register(const struct tag *t, uint8_t *room, uint8_t address)
{
    if (address >= 0x04 && address <= 0x0A)
        room[1] = t->reg[address - 0x04];
    else if (address == 0x0F)
        room[1] = (t->locks & LOCK_CFG) != 0;
    else
        return answer(room, NOT_AVAILABLE);
    room[0] = 0;
    return finish(room, 2);
}

static uint8_t present_password(struct tag *t, const uint8_t *fields)
{
    uint8_t number = fields[0];
    if (number > 3)
        return NOT_AVAILABLE;
    bool right = !memcmp(t->password[number], fields + 1, 8);
    t->session = right ? 1 + number : 0;
    return right ? OK : FAILED;
}

/* ---- writes and locks: each does its work and gives the code of the answer */

static uint8_t write_blocks(const struct tag *t, uint8_t *memory, uint32_t first, uint32_t count, uint32_t outside,
                            const uint8_t *data)
{
    if (count > 4)
        return FAILED;
    if (first + count > outside)
        return NOT_AVAILABLE;
    int area = area_of(t, first);
    if (first + count > area_end(t, area))
        return FAILED;
    if (!writable(t, area) || locked(t, first) || (count > 1 && locked(t, first + 1)))
        return LOCKED;
    memcpy(memory + 4 * first, data, 4 * count);
    return OK;
}

static uint8_t lock_block(struct tag *t, uint32_t block)
{
    if (block > 1)
        return NOT_AVAILABLE;
    if (locked(t, block))
        return ALREADY_LOCKED;
    if (!writable(t, area_of(t, block)))
        return NOT_LOCKABLE;
    t->locks |= 1 << block;
    return OK;
}

static uint8_t write_byte(const struct tag *t, uint8_t *byte, uint8_t lock, uint8_t value)
{
    if (t->locks & lock)
        return LOCKED;
    *byte = value;
    return OK;
}

static uint8_t lock_byte(struct tag *t, uint8_t lock)
{
    if (t->locks & lock)
        return ALREADY_LOCKED;
    t->locks |= lock;
    return OK;
}

static bool end_allowed(const struct tag *t, int i, uint8_t v)
{
    if (v > last_end(t) || (i > 1 && v <= t->reg[i - 2]))
        return false;
    for (int later = i + 2; later < 6; later += 2)
        if (t->reg[later] != last_end(t))
            return false;
    return true;
}

static uint8_t write_register(struct tag *t, uint8_t address, uint8_t value)
{
    bool area = address >= 0x04 && address <= 0x0A;
    if (!area && address != 0x0F)
        return NOT_AVAILABLE;
    if (t->session != 1 || t->locks & LOCK_CFG)
        return FAILED;
    if (!area) {
        if (value > 1)
            return BAD_VALUE;
        t->locks |= value ? LOCK_CFG : 0;
        return OK;
    }
    int i = address - 0x04;
    if (i % 2 ? !end_allowed(t, i, value) : value > 0x0F)
        return BAD_VALUE;
    t->reg[i] = value;
    return OK;
}

static uint8_t write_password(struct tag *t, const uint8_t *fields)
{
    uint8_t number = fields[0];
    if (number > 3)
        return NOT_AVAILABLE;
    if (t->session != 1 + number)
        return FAILED;
    memcpy(t->password[number], fields + 1, 8);
    return OK;
}

/* ---- commands */

enum {
    LISTED = 0x01,
    TAKES_OPTION = 0x02,
    WRITES = 0x04,    /* Option_flag holds the answer */
    ADDRESSED = 0x08, /* only with Address_flag */
    COUNTED = 0x10    /* 4 bytes a block follow the count */
};

static const struct rule {
    uint8_t is, length;
} rules[256] = {
    [0x02] = {LISTED | TAKES_OPTION | ADDRESSED, 0},
    [0x20] = {LISTED | TAKES_OPTION, 1},
    [0x21] = {LISTED | TAKES_OPTION | WRITES, 5},
    [0x22] = {LISTED | TAKES_OPTION | WRITES, 1},
    [0x23] = {LISTED | TAKES_OPTION, 2},
    [0x24] = {LISTED | TAKES_OPTION | WRITES | COUNTED, 2},
    [0x25] = {LISTED | ADDRESSED, 0},
    [0x26] = {LISTED, 0},
    [0x27] = {LISTED | TAKES_OPTION | WRITES, 1},
    [0x28] = {LISTED | TAKES_OPTION | WRITES, 0},
    [0x29] = {LISTED | TAKES_OPTION | WRITES, 1},
    [0x2A] = {LISTED | TAKES_OPTION | WRITES, 0},
    [0x2C] = {LISTED, 2},
    [0x30] = {LISTED | TAKES_OPTION, 2},
    [0x31] = {LISTED | TAKES_OPTION | WRITES, 6},
    [0x32] = {LISTED | TAKES_OPTION | WRITES, 2},
    [0x33] = {LISTED | TAKES_OPTION, 4},
    [0x34] = {LISTED | TAKES_OPTION | WRITES | COUNTED, 4},
    [0x3C] = {LISTED, 4},
    [0xA0] = {LISTED, 1},
    [0xA1] = {LISTED | TAKES_OPTION | WRITES, 2},
    [0xB1] = {LISTED | TAKES_OPTION | WRITES, 9},
    [0xB3] = {LISTED, 9},
};

/* A number of a block command: one byte for 2xh, two for 3xh. */
static uint32_t number(uint8_t code, const uint8_t *fields, int i)
{
    return code >= 0x30 ? get16(fields + 2 * i) : fields[i];
}

static bool length_good(struct rule rule, uint8_t code, const uint8_t *fields, size_t len)
{
    if (!(rule.is & COUNTED))
        return len == rule.length;
    return len >= rule.length && len == rule.length + 4 * (size_t)(number(code, fields, 1) + 1);
}

static uint32_t outside_of(const struct tag *t, uint8_t code)
{
    return code < 0x30 && blocks_of(t) > 0x100 ? 0x100 : blocks_of(t);
}

static uint8_t write_command(struct tag *t, uint8_t *memory, uint8_t code, const uint8_t *fields)
{
    switch (code) {
    case 0x21:
        return write_blocks(t, memory, fields[0], 1, outside_of(t, code), fields + 1);
    case 0x31:
        return write_blocks(t, memory, get16(fields), 1, outside_of(t, code), fields + 2);
    case 0x24:
        return write_blocks(t, memory, fields[0], fields[1] + 1u, outside_of(t, code), fields + 2);
    case 0x34:
        return write_blocks(t, memory, get16(fields), get16(fields + 2) + 1, outside_of(t, code), fields + 4);
    case 0x22:
    case 0x32:
        return lock_block(t, number(code, fields, 0));
    case 0x27:
        return write_byte(t, &t->afi, LOCK_AFI, fields[0]);
    case 0x28:
        return lock_byte(t, LOCK_AFI);
    case 0x29:
        return write_byte(t, &t->dsfid, LOCK_DSFID, fields[0]);
    case 0x2A:
        return lock_byte(t, LOCK_DSFID);
    case 0xA1:
        return write_register(t, fields[0], fields[1]);
    default: /* B1h */
        return write_password(t, fields);
    }
}

static size_t read_command(struct tag *t, const uint8_t *memory, uint8_t *room, uint8_t code, bool option,
                           const uint8_t *fields)
{
    uint32_t first = number(code, fields, 0);
    uint32_t count = (code & 0x0F) == 0 ? 1 : number(code, fields, 1) + 1;
    uint32_t outside = outside_of(t, code);
    if (first >= outside)
        return answer(room, NOT_AVAILABLE);
    uint32_t end = first + count < outside ? first + count : outside;
    if ((code & 0x0F) == 0x0C)
        return read_status(t, room, first, end);
    return read_blocks(t, memory, room, first, end, option);
}

static size_t command(struct tag *t, uint8_t *memory, uint8_t *room, uint8_t code, bool option, const uint8_t *fields)
{
    switch (code) {
    case 0x02:
        t->state = QUIET;
        return 0;
    case 0x25:
        t->state = SELECTED;
        return answer(room, OK);
    case 0x26:
        t->state = READY;
        return answer(room, OK);
    case 0x20:
    case 0x23:
    case 0x2C:
    case 0x30:
    case 0x33:
    case 0x3C:
        return read_command(t, memory, room, code, option, fields);
    case 0xA0:
        return read_register(t, room, fields[0]);
    case 0xB3:
        return answer(room, present_password(t, fields));
    }
    uint8_t result = write_command(t, memory, code, fields);
    if (!option)
        return answer(room, result);
    t->held = result == OK ? HELD_SUCCESS : HELD_ERROR;
    t->held_code = result;
    return 0;
}

/* ---- inventory */

static size_t inventory_answer(const struct tag *t, uint8_t *room)
{
    room[0] = 0;
    room[1] = t->dsfid;
    memcpy(room + 2, t->uid, 8);
    return finish(room, 10);
}

/* X0h, with X not 0, matches the family X; 00h matches all, any other AFI only itself. */
static bool afi_matches(uint8_t asked, uint8_t stored)
{
    return asked == stored || (asked % 16 == 0 && (asked == 0 || asked / 16 == stored / 16));
}

static size_t inventory(struct tag *t, uint8_t *room, uint8_t flags, const uint8_t *p, const uint8_t *end)
{
    uint8_t afi = 0;
    if (flags & HAS_AFI) {
        if (p == end)
            return 0;
        afi = *p++;
    }
    if (p == end)
        return 0;
    uint8_t mask_len = *p++;
    if (mask_len > (flags & ONE_SLOT ? 64 : 60) || end - p != (mask_len + 7) / 8)
        return 0;
    if (t->state == QUIET || !afi_matches(afi, t->afi))
        return 0;
    uint64_t mask = 0;
    for (int shift = 0; p < end; shift += 8)
        mask |= (uint64_t)*p++ << shift;
    if (mask_len != 0 && (mask ^ get64(t->uid)) << (64 - mask_len) != 0)
        return 0;
    if (flags & ONE_SLOT)
        return inventory_answer(t, room);
    t->round = 1;
    t->mask_len = mask_len;
    return (get64(t->uid) >> mask_len & 0x0F) == 0 ? inventory_answer(t, room) : 0;
}

/* ---- events */

/* A request other than Inventory: the manufacturer code, whom it means, then the table of commands. */
static size_t other_request(struct tag *t, uint8_t *memory, uint8_t *room, uint8_t flags, uint8_t code, const uint8_t *p, const uint8_t *end)
{
    if (code >= 0xA0 && code <= 0xDF && (p == end || *p++ != 0x02))
        return 0;
    bool option = flags & OPTION;
    switch (flags & (SELECT | ADDRESS)) {
    case 0:
        if (t->state == QUIET)
            return 0;
        break;
    case SELECT:
        if (t->state != SELECTED)
            return 0;
        break;
    case ADDRESS:
        if (end - p < 8)
            return 0;
        if (memcmp(p, t->uid, 8)) {
            if (code == 0x25 && end - p == 8 && !option && t->state == SELECTED)
                t->state = READY;
            return 0;
        }
        p += 8;
        break;
    default:
        return 0;
    }

    struct rule rule = rules[code];
    if (!(rule.is & LISTED))
        return answer(room, NOT_SUPPORTED);
    if (!length_good(rule, code, p, (size_t)(end - p)) || (rule.is & ADDRESSED && !(flags & ADDRESS)))
        return 0;
    if (option && !(rule.is & TAKES_OPTION))
        return answer(room, BAD_OPTION);
    return command(t, memory, room, code, option, p);
}

static size_t request(struct tag *t, uint8_t *memory, uint8_t *room, const uint8_t *frame, size_t len)
{
    if (!t->field)
        return 0;
    drop_round(t);
    drop_held(t);
    if (len < 4 || plain_crc(frame, len - 2) != get16(frame + len - 2))
        return 0;

    uint8_t flags = frame[0], code = frame[1];
    const uint8_t *p = frame + 2, *end = frame + len - 2;
    if (flags & RESERVED || !(flags & INVENTORY) != (code != 0x01))
        return 0;
    if (flags & INVENTORY)
        return inventory(t, room, flags, p, end);
    return other_request(t, memory, room, flags, code, p, end);
}

static size_t end_of_frame(struct tag *t, uint8_t *room)
{
    if (t->held != HELD_NONE) {
        uint8_t code = t->held_code;
        drop_held(t);
        return answer(room, code);
    }
    if (!t->round)
        return 0;
    if (t->slot == 15) {
        drop_round(t);
        return 0;
    }
    t->slot++;
    return (get64(t->uid) >> t->mask_len & 0x0F) == t->slot ? inventory_answer(t, room) : 0;
}

static void switch_field(struct tag *t, bool on)
{
    t->field = on;
    t->state = READY;
    t->session = 0;
    drop_round(t);
    drop_held(t);
}

/* ---- host calls */

uint64_t plain_event(uint8_t record[UISTERMO_RECORD], uint8_t *memory, size_t memory_length, uint8_t *room, size_t room_length,
                     uint32_t kind, const uint8_t *frame, size_t frame_length)
{
    if (memory_length != UISTERMO_MEMORY_16K && memory_length != UISTERMO_MEMORY_64K)
        return refuse(UISTERMO_REFUSED_MEMORY);
    if (room_length < UISTERMO_ROOM)
        return refuse(UISTERMO_REFUSED_ROOM);
    if (!record_good(record, memory_length))
        return refuse(UISTERMO_REFUSED_RECORD);

    struct tag *t = (struct tag *)record;
    switch (kind) {
    case UISTERMO_ON:
        if (!t->field)
            switch_field(t, true);
        return 0;
    case UISTERMO_OFF:
        switch_field(t, false);
        return 0;
    case UISTERMO_END_OF_FRAME:
        return end_of_frame(t, room);
    case UISTERMO_REQUEST:
        return request(t, memory, room, frame, frame_length);
    default:
        return 0;
    }
}

/* The number for an image of this length with a memory of that length, or 0. */
static uint32_t sizes(size_t image_length, size_t memory_length)
{
    if (image_length != UISTERMO_IMAGE_16K && image_length != UISTERMO_IMAGE_64K)
        return UISTERMO_REFUSED_IMAGE;
    return image_length != PLAIN_HEADER + memory_length ? UISTERMO_REFUSED_MEMORY : UISTERMO_NONE;
}

uint64_t plain_load(uint8_t record[UISTERMO_RECORD], const uint8_t *image, size_t image_length, uint8_t *memory, size_t memory_length)
{
    uint32_t wrong = sizes(image_length, memory_length);
    if (wrong)
        return refuse(wrong);
    if (!header_fits(image, memory_length))
        return memory_length == UISTERMO_MEMORY_16K ? header_fault(image, UISTERMO_MARK_16K, 63) : header_fault(image, UISTERMO_MARK_64K, 255);
    memcpy(record, image, PLAIN_HEADER);
    memset(record + PLAIN_HEADER, 0, UISTERMO_RECORD - PLAIN_HEADER);
    memcpy(memory, image + PLAIN_HEADER, memory_length);
    return 0;
}

uint64_t plain_save(const uint8_t record[UISTERMO_RECORD], const uint8_t *memory, size_t memory_length, uint8_t *image,
                    size_t image_length)
{
    uint32_t wrong = sizes(image_length, memory_length);
    if (wrong)
        return refuse(wrong);
    if (!record_good(record, memory_length))
        return refuse(UISTERMO_REFUSED_RECORD);
    memcpy(image, record, PLAIN_HEADER);
    memcpy(image + PLAIN_HEADER, memory, memory_length);
    return image_length;
}

uint64_t plain_factory(uint8_t record[UISTERMO_RECORD], uint64_t uid, uint8_t *memory, size_t memory_length)
{
    if (memory_length != UISTERMO_MEMORY_16K && memory_length != UISTERMO_MEMORY_64K)
        return refuse(UISTERMO_REFUSED_MEMORY);

    struct tag *t = (struct tag *)record;
    memset(t, 0, sizeof *t);
    t->mark = memory_length == UISTERMO_MEMORY_16K ? UISTERMO_MARK_16K : UISTERMO_MARK_64K;
    put64(t->uid, uid);
    t->reg[1] = t->reg[3] = t->reg[5] = last_end(t);
    memset(memory, 0, memory_length);
    return 0;
}

/* ---- the search of a tray */

enum { SLOTS = 16, SLOT_BITS = 4 };

static bool any_equal(const uint64_t *uids, size_t count)
{
    for (size_t i = 0; i < count; i++)
        for (size_t j = i + 1; j < count; j++)
            if (uids[i] == uids[j])
                return true;
    return false;
}

struct search {
    const uint64_t *uids;
    size_t count;
    uint64_t *next; /* where the next UID found goes */
    uint32_t requests;
};

/* One request, which every tag hears: each whose UID ends in the mask answers in its slot. A slot with two answers or more is asked again. */
static void ask(struct search *s, uint64_t mask, unsigned mask_len)
{
    uint64_t compared = ((uint64_t)1 << mask_len) - 1, heard[SLOTS];
    uint32_t answers[SLOTS] = {0};
    s->requests++;
    for (size_t i = 0; i < s->count; i++)
        if ((s->uids[i] & compared) == mask) {
            unsigned slot = s->uids[i] >> mask_len & (SLOTS - 1);
            answers[slot]++;
            heard[slot] = s->uids[i];
        }
    for (unsigned slot = 0; slot < SLOTS; slot++)
        if (answers[slot] == 1)
            *s->next++ = heard[slot];
        else if (answers[slot] > 1)
            ask(s, mask | (uint64_t)slot << mask_len, mask_len + SLOT_BITS);
}

uint64_t plain_search(const uint64_t *uids, size_t count, uint64_t *list, size_t list_room)
{
    if (count > UISTERMO_TAGS)
        return refuse(UISTERMO_REFUSED_TAGS);
    if (any_equal(uids, count))
        return refuse(UISTERMO_REFUSED_EQUAL);
    if (list_room < count)
        return refuse(UISTERMO_REFUSED_SMALL);

    struct search s = {.uids = uids, .count = count, .next = list};
    ask(&s, 0, 0);
    return s.requests;
}
