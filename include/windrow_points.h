/*
 * windrow_points.h: the live table, 1,424 bytes in six rows of points, and accessors that put a value into it and get one out.
 * windrow_reader.h and windrow_gateway.h include it.
 *
 * | kind            | points      | bytes a point | from byte | polled by | most in a poll |
 * |-----------------|-------------|---------------|-----------|-----------|----------------|
 * | flag            | 1801-1928   | one bit       | 0         | 01        | 128, all       |
 * | 16-bit signed   | 3001-3064   | 2             | 16        | 03        | 64, all        |
 * | text of 8       | 4001-4032   | 8             | 144       | 03        | 31 of 32       |
 * | 32-bit signed   | 5101-5164   | 4             | 400       | 03        | 62 of 64       |
 * | IEEE float      | 7101-7228   | 4             | 656       | 03        | 62 of 128      |
 * | text of 16      | 14001-14016 | 16            | 1168      | 03        | 15 of 16       |
 *
 * Numbers are kept high byte first. Flag 1801 + i is bit i % 8 of byte i / 8, the lowest bit being bit 0. A float is kept bit for
 * bit, NaNs too. Two points have a meaning of their own, and every alarm record carries them: 5101 counts turner passes, 5102
 * litres of water.
 *
 * Every accessor answers whether the point is of its kind; if not, it changes nothing. Look at the answer: a value that is put to
 * no point is lost. A table is WINDROW_TABLE_BYTES bytes.
 *
 * Clean text: the table keeps the bytes that are put, but the record that a scan captures and the reply to a poll of live texts
 * have 3F hex ('?') for each byte of a text that is neither 00 nor 20 to 7E hex, in both text rows, each byte by itself, behind a
 * 00 too (windrow_clean_byte). No other kind of point is changed. Gateways before 2.2 captured and sent texts as they stood; what
 * they have filed lies in the archive as they filed it, and is polled so.
 *
 * A poll reads live points, as the table has them at that moment: any run within one row, from the point on that is the address.
 * The quantity counts points, each as one whatever its size, so that a reply may have more bytes of data than twice the quantity,
 * or fewer; it has WINDROW_MOST_DATA (250) at most. They are the bytes that a record has for a group of the same points: as they
 * stand in the table, but texts clean, and flags packed afresh from the first one asked, eight to a byte, the lowest bit first,
 * spare high bits 0. windrow_request makes the request and windrow_reply_points takes the reply (windrow_reader.h).
 */
#ifndef WINDROW_POINTS_H
#define WINDROW_POINTS_H

#include <stdbool.h>
#include <stddef.h>
#include <stdint.h>
#include <string.h>

#include "windrow_limits.h"

/* The rows: first and last point, and the byte of the table where the first one starts. */
#define WINDROW_FIRST_FLAG 1801
#define WINDROW_LAST_FLAG 1928
#define WINDROW_FLAGS_AT 0
#define WINDROW_FIRST_INT16 3001
#define WINDROW_LAST_INT16 3064
#define WINDROW_INT16S_AT 16
#define WINDROW_FIRST_TEXT8 4001
#define WINDROW_LAST_TEXT8 4032
#define WINDROW_TEXT8S_AT 144
#define WINDROW_FIRST_INT32 5101
#define WINDROW_LAST_INT32 5164
#define WINDROW_INT32S_AT 400
#define WINDROW_FIRST_FLOAT 7101
#define WINDROW_LAST_FLOAT 7228
#define WINDROW_FLOATS_AT 656
#define WINDROW_FIRST_TEXT16 14001
#define WINDROW_LAST_TEXT16 14016
#define WINDROW_TEXT16S_AT 1168

#define WINDROW_TURNER_PASSES 5101
#define WINDROW_LITRES_OF_WATER 5102

/* What a point is. The reading end answers the kind with each value, and then bits, place and length mean what stands here. */
enum windrow_kind {
    WINDROW_NONE = 0,  /* no point; of a refused value */
    WINDROW_FLAG = 1,  /* bits is 0 or 1 */
    WINDROW_INT16 = 2, /* bits is the value in 32-bit two's complement: (int32_t)bits */
    WINDROW_INT32 = 3, /* the same */
    WINDROW_FLOAT = 4, /* bits is the IEEE pattern: memcpy it into a float */
    WINDROW_TEXT = 5   /* the text is frame[place] to frame[place + length - 1] */
};

/* A row of the live table: its points, the bytes that one takes, 0 standing for one bit, and the byte where the first starts. */
struct windrow_row {
    enum windrow_kind kind;
    uint16_t first, last, size, at;
};

/* The row that a point is in; of kind WINDROW_NONE where it is in none. */
static inline struct windrow_row windrow_row_of(uint32_t point)
{
    static const struct windrow_row rows[] = {
        {WINDROW_FLAG, WINDROW_FIRST_FLAG, WINDROW_LAST_FLAG, 0, WINDROW_FLAGS_AT},
        {WINDROW_INT16, WINDROW_FIRST_INT16, WINDROW_LAST_INT16, 2, WINDROW_INT16S_AT},
        {WINDROW_TEXT, WINDROW_FIRST_TEXT8, WINDROW_LAST_TEXT8, 8, WINDROW_TEXT8S_AT},
        {WINDROW_INT32, WINDROW_FIRST_INT32, WINDROW_LAST_INT32, 4, WINDROW_INT32S_AT},
        {WINDROW_FLOAT, WINDROW_FIRST_FLOAT, WINDROW_LAST_FLOAT, 4, WINDROW_FLOATS_AT},
        {WINDROW_TEXT, WINDROW_FIRST_TEXT16, WINDROW_LAST_TEXT16, 16, WINDROW_TEXT16S_AT},
    };
    static const struct windrow_row none = {WINDROW_NONE, 0, 0, 0, 0};
    for (size_t i = 0; i < sizeof rows / sizeof rows[0]; i++)
        if (rows[i].first <= point && point <= rows[i].last)
            return rows[i];
    return none;
}

/* The bytes that so many points of a row take in a record or in a reply: (c + 7) / 8 for c flags, c times its size for others. */
static inline size_t windrow_points_bytes(struct windrow_row row, uint32_t count)
{
    return row.size == 0 ? ((size_t)count + 7) / 8 : (size_t)count * row.size;
}

/* The most points of a row that one poll reads: all, or as many as WINDROW_MOST_DATA bytes hold; 0 where there is no row. */
static inline uint32_t windrow_most_points(struct windrow_row row)
{
    if (row.kind == WINDROW_NONE)
        return 0;
    uint32_t all = row.last - row.first + 1u;
    uint32_t held = row.size == 0 ? 8u * WINDROW_MOST_DATA : (uint32_t)WINDROW_MOST_DATA / row.size;
    return held < all ? held : all;
}

/* The function by which a poll reads points of a row, which must be one. */
static inline uint8_t windrow_function_for(struct windrow_row row)
{
    return row.kind == WINDROW_FLAG ? WINDROW_READ_FLAGS : WINDROW_READ;
}

/*
 * The bytes of a record with these groups, stamp included; 0 where a group is bad. A record may have at most
 * WINDROW_LONGEST_RECORD.
 */
static inline size_t windrow_record_bytes(const uint16_t groups[WINDROW_GROUP_NUMBERS])
{
    size_t bytes = WINDROW_STAMP_BYTES;
    for (int i = 0; i < WINDROW_GROUP_NUMBERS; i += 2) {
        uint32_t first = groups[i], count = groups[i + 1];
        struct windrow_row row = windrow_row_of(first);
        if (first == 0 && count == 0)
            continue;
        if (row.kind == WINDROW_NONE || count == 0 || first + count - 1 > row.last)
            return 0;
        bytes += windrow_points_bytes(row, count);
    }
    return bytes;
}

/* The table's byte where a point starts, and of a flag the byte that it is in. The row is the point's. */
static inline size_t windrow_point_at(struct windrow_row row, uint32_t point)
{
    return row.size == 0 ? row.at + (point - row.first) / 8 : row.at + (size_t)(point - row.first) * row.size;
}

/* Numbers of 1 to 4 bytes, high byte first. */
static inline void windrow_put_bytes(uint8_t *at, size_t size, uint32_t bits)
{
    for (size_t i = size; i-- > 0; bits >>= 8)
        at[i] = (uint8_t)bits;
}

static inline uint32_t windrow_get_bytes(const uint8_t *at, size_t size)
{
    uint32_t bits = 0;
    for (size_t i = 0; i < size; i++)
        bits = bits << 8 | at[i];
    return bits;
}

static inline bool windrow_put_flag(uint8_t *table, uint32_t point, bool on)
{
    struct windrow_row row = windrow_row_of(point);
    if (row.kind != WINDROW_FLAG)
        return false;
    uint8_t *byte = &table[windrow_point_at(row, point)];
    unsigned bit = 1u << (point - row.first) % 8;
    *byte = (uint8_t)(on ? *byte | bit : *byte & ~bit);
    return true;
}

static inline bool windrow_get_flag(const uint8_t *table, uint32_t point, bool *on)
{
    struct windrow_row row = windrow_row_of(point);
    if (row.kind != WINDROW_FLAG)
        return false;
    *on = table[windrow_point_at(row, point)] >> (point - row.first) % 8 & 1;
    return true;
}

static inline bool windrow_put_int16(uint8_t *table, uint32_t point, int16_t value)
{
    struct windrow_row row = windrow_row_of(point);
    if (row.kind != WINDROW_INT16)
        return false;
    windrow_put_bytes(&table[windrow_point_at(row, point)], row.size, (uint16_t)value);
    return true;
}

static inline bool windrow_get_int16(const uint8_t *table, uint32_t point, int16_t *value)
{
    struct windrow_row row = windrow_row_of(point);
    if (row.kind != WINDROW_INT16)
        return false;
    *value = (int16_t)windrow_get_bytes(&table[windrow_point_at(row, point)], row.size);
    return true;
}

static inline bool windrow_put_int32(uint8_t *table, uint32_t point, int32_t value)
{
    struct windrow_row row = windrow_row_of(point);
    if (row.kind != WINDROW_INT32)
        return false;
    windrow_put_bytes(&table[windrow_point_at(row, point)], row.size, (uint32_t)value);
    return true;
}

static inline bool windrow_get_int32(const uint8_t *table, uint32_t point, int32_t *value)
{
    struct windrow_row row = windrow_row_of(point);
    if (row.kind != WINDROW_INT32)
        return false;
    *value = (int32_t)windrow_get_bytes(&table[windrow_point_at(row, point)], row.size);
    return true;
}

static inline bool windrow_put_float(uint8_t *table, uint32_t point, float value)
{
    struct windrow_row row = windrow_row_of(point);
    uint32_t bits;
    if (row.kind != WINDROW_FLOAT)
        return false;
    memcpy(&bits, &value, sizeof bits);
    windrow_put_bytes(&table[windrow_point_at(row, point)], row.size, bits);
    return true;
}

static inline bool windrow_get_float(const uint8_t *table, uint32_t point, float *value)
{
    struct windrow_row row = windrow_row_of(point);
    if (row.kind != WINDROW_FLOAT)
        return false;
    uint32_t bits = windrow_get_bytes(&table[windrow_point_at(row, point)], row.size);
    memcpy(value, &bits, sizeof bits);
    return true;
}

/*
 * A text's byte as it is captured and polled live: clean text, above. For firmware that compares its table with a record, and for
 * software that can't bear the texts that gateways before 2.2 have filed, nor the live ones that those of 2.0 and 2.1 send with
 * any bytes. It leaves 00 as it is.
 *
 * Drivers that compare texts, or look them up: a name of your own must be cleaned before it is compared with a captured or live
 * text, byte by byte, in the encoding in which it was typed (one byte of code page 437 is one ?, two of UTF-8 are two). Different
 * names may become the same text, so it is no key. After an upgrade an archive has the same name in both forms, until the old
 * records are captured over: clean the texts of every record before you group by them.
 */
static inline uint8_t windrow_clean_byte(uint8_t byte)
{
    return byte == 0x00 || (0x20 <= byte && byte <= 0x7E) ? byte : 0x3F;
}

/*
 * A text of up to 8 or 16 bytes, which are put as they are, clean or not. It must end in a zero, and ends at its first one. A
 * shorter one is filled up with zeros; a longer one is not put, and the answer is false. A field of 8 or 16 bytes that has no
 * closing zero, or has 00 inside, is copied to &table[windrow_point_at(windrow_row_of(point), point)] instead.
 */
static inline bool windrow_put_text(uint8_t *table, uint32_t point, const char *text)
{
    struct windrow_row row = windrow_row_of(point);
    size_t length = strlen(text);
    if (row.kind != WINDROW_TEXT || length > row.size)
        return false;
    uint8_t *at = &table[windrow_point_at(row, point)];
    memmove(at, text, length); /* the text may be one of the table's */
    memset(at + length, 0, row.size - length);
    return true;
}

/* The text's 8 or 16 bytes, as they are in the table, and a zero behind them: 17 bytes hold any. */
static inline bool windrow_get_text(const uint8_t *table, uint32_t point, char text[17])
{
    struct windrow_row row = windrow_row_of(point);
    if (row.kind != WINDROW_TEXT)
        return false;
    memcpy(text, &table[windrow_point_at(row, point)], row.size);
    text[row.size] = 0;
    return true;
}

#endif
