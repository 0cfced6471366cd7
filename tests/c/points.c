/*
 * The accessors of the live table: puts a value of its own into every point, gets each back, and writes the table as lines of 16
 * bytes. The model writes what the table must be by its own rows (tests/model/src/bin/table.rs), from the same values. Then what
 * must change nothing: a put to a point of another kind or to no point, a text that is too long; and a flag's neighbours stay. At
 * last clean text: what each byte is captured as, and that the table keeps them all.
 */
#include <inttypes.h>
#include <stdio.h>
#include <string.h>

#include "windrow_points.h"

static uint8_t table[WINDROW_TABLE_BYTES];
static unsigned failures;

static void check_of(bool held, const char *what, const char *sort, uint32_t number)
{
    if (held)
        return;
    printf("FAILED: %s, %s %" PRIu32 "\n", what, sort, number);
    failures++;
}

static void check(bool held, const char *what, uint32_t point)
{
    check_of(held, what, "point", point);
}

/* The values, by the place i of a point in its row. The model has the same. */

static bool flag_of(uint32_t i)
{
    return i % 3 == 0 || i % 7 == 2;
}

static int16_t int16_of(uint32_t i)
{
    return (int16_t)((int32_t)i * 1031 - 32768);
}

static int32_t int32_of(uint32_t i)
{
    return (int32_t)((int64_t)i * 68174084 - 2147483648LL);
}

/* Quarters from -20.25 on; the last eight are patterns: -0.0, the largest and the smallest number, infinities, and NaNs quiet and
   signalling. */
static float float_of(uint32_t i)
{
    static const uint32_t patterns[8] = {0x80000000, 0x7F7FFFFF, 0x00000001, 0x7F800000,
                                         0xFF800000, 0x7FC00001, 0xFFC12345, 0x7FA00002};
    float value = (float)i * 0.25f - 20.25f;
    if (i >= 120)
        memcpy(&value, &patterns[i - 120], sizeof value);
    return value;
}

/* A text of this length, made of printable characters; each has a first character of its own in its row. */
static void text_of(char text[17], uint32_t i, uint32_t length)
{
    for (uint32_t k = 0; k < length; k++)
        text[k] = (char)(33 + (8 * i + k) % 94);
    text[length] = 0;
}

/* Points 4001 on have 1 to 8 characters, but for 4032, which has none; points 14001 on have 16 down to 1. */
static uint32_t length_of(uint32_t point)
{
    if (point == WINDROW_LAST_TEXT8)
        return 0;
    return point <= WINDROW_LAST_TEXT8 ? 1 + (point - WINDROW_FIRST_TEXT8) % 8 : 16 - (point - WINDROW_FIRST_TEXT16);
}

static void put_text(uint32_t point, uint32_t first)
{
    char text[17], got[17];
    text_of(text, point - first, length_of(point));
    check(windrow_put_text(table, point, text), "text not put", point);
    memset(got, 'X', sizeof got);
    check(windrow_get_text(table, point, got) && strcmp(got, text) == 0, "another text", point);
}

static void put_float(uint32_t point)
{
    float value = float_of(point - WINDROW_FIRST_FLOAT), got = 1234.5f;
    check(windrow_put_float(table, point, value), "float not put", point);
    /* by their bits: a NaN is unlike itself, and -0.0 is like 0.0 */
    check(windrow_get_float(table, point, &got) && memcmp(&got, &value, sizeof got) == 0, "another float", point);
}

static void put_int16(uint32_t point)
{
    int16_t value = int16_of(point - WINDROW_FIRST_INT16), got = 0x5A5A;
    check(windrow_put_int16(table, point, value), "16-bit number not put", point);
    check(windrow_get_int16(table, point, &got) && got == value, "another 16-bit number", point);
}

static void put_int32(uint32_t point)
{
    int32_t value = int32_of(point - WINDROW_FIRST_INT32), got = 0x5A5A5A5A;
    check(windrow_put_int32(table, point, value), "32-bit number not put", point);
    check(windrow_get_int32(table, point, &got) && got == value, "another 32-bit number", point);
}

static void put_flag(uint32_t point)
{
    bool value = flag_of(point - WINDROW_FIRST_FLAG), got = !value;
    check(windrow_put_flag(table, point, value), "flag not put", point);
    check(windrow_get_flag(table, point, &got) && got == value, "another flag", point);
}

/* Over a table that is not of zeros, so that what a put leaves is seen. */
static void put_all(void)
{
    memset(table, 0xA5, sizeof table);
    for (uint32_t point = WINDROW_FIRST_FLAG; point <= WINDROW_LAST_FLAG; point++)
        put_flag(point);
    for (uint32_t point = WINDROW_FIRST_INT16; point <= WINDROW_LAST_INT16; point++)
        put_int16(point);
    for (uint32_t point = WINDROW_FIRST_TEXT8; point <= WINDROW_LAST_TEXT8; point++)
        put_text(point, WINDROW_FIRST_TEXT8);
    for (uint32_t point = WINDROW_FIRST_INT32; point <= WINDROW_LAST_INT32; point++)
        put_int32(point);
    for (uint32_t point = WINDROW_FIRST_FLOAT; point <= WINDROW_LAST_FLOAT; point++)
        put_float(point);
    for (uint32_t point = WINDROW_FIRST_TEXT16; point <= WINDROW_LAST_TEXT16; point++)
        put_text(point, WINDROW_FIRST_TEXT16);
}

static void write_table(void)
{
    for (size_t i = 0; i < sizeof table; i++)
        printf("%02x%s", table[i], i % 16 == 15 ? "\n" : "");
}

/* Whether a point is in the row from first to last. */
static bool is_in(uint32_t point, uint32_t first, uint32_t last)
{
    return first <= point && point <= last;
}

/* Puts and gets of a point that is not of their kind answer false; a get then leaves what it would fill. */

static void refuse_flag(uint32_t point)
{
    bool on = true, off = false;
    check(!windrow_put_flag(table, point, true) && !windrow_put_flag(table, point, false), "put as a flag", point);
    check(!windrow_get_flag(table, point, &on) && !windrow_get_flag(table, point, &off) && on && !off, "got as a flag", point);
}

static void refuse_int16(uint32_t point)
{
    int16_t got = 21;
    check(!windrow_put_int16(table, point, -1), "put as 16-bit", point);
    check(!windrow_get_int16(table, point, &got) && got == 21, "got as 16-bit", point);
}

static void refuse_int32(uint32_t point)
{
    int32_t got = 32;
    check(!windrow_put_int32(table, point, -1), "put as 32-bit", point);
    check(!windrow_get_int32(table, point, &got) && got == 32, "got as 32-bit", point);
}

static void refuse_float(uint32_t point)
{
    float got = 4.5f;
    check(!windrow_put_float(table, point, -1.5f), "put as a float", point);
    check(!windrow_get_float(table, point, &got) && got == 4.5f, "got as a float", point);
}

static void refuse_text(uint32_t point)
{
    char text[17] = "as it was";
    check(!windrow_put_text(table, point, "t"), "put as a text", point);
    check(!windrow_get_text(table, point, text) && strcmp(text, "as it was") == 0, "got as a text", point);
}

static void refuse(uint32_t point)
{
    if (!is_in(point, 1801, 1928))
        refuse_flag(point);
    if (!is_in(point, 3001, 3064))
        refuse_int16(point);
    if (!is_in(point, 5101, 5164))
        refuse_int32(point);
    if (!is_in(point, 7101, 7228))
        refuse_float(point);
    if (!is_in(point, 4001, 4032) && !is_in(point, 14001, 14016))
        refuse_text(point);
}

/* Every number of 16 bits, the points again with a 17th bit, and the largest. */
static void refuse_all(void)
{
    static uint8_t before[WINDROW_TABLE_BYTES];
    memcpy(before, table, sizeof table);
    for (uint32_t point = 0; point < 65536 + 15000; point++) {
        refuse(point);
        check(memcmp(before, table, sizeof table) == 0, "a refused put changed the table", point);
    }
    refuse(UINT32_MAX);
    for (uint32_t point = WINDROW_FIRST_TEXT8; point <= WINDROW_LAST_TEXT8; point++)
        check(!windrow_put_text(table, point, "123456789"), "9 characters put", point);
    for (uint32_t point = WINDROW_FIRST_TEXT16; point <= WINDROW_LAST_TEXT16; point++)
        check(!windrow_put_text(table, point, "12345678901234567"), "17 characters put", point);
    check(memcmp(before, table, sizeof table) == 0, "a refused put changed the table", 0);
}

/* Flag 1801 + i is bit i % 8 of byte i / 8: over zeros only that bit comes on, and over ones only that bit goes off. */
static void neighbours(void)
{
    static uint8_t wanted[WINDROW_TABLE_BYTES];
    for (uint32_t i = 0; i < 128; i++)
        for (int on = 0; on <= 1; on++) {
            memset(table, on ? 0x00 : 0xFF, sizeof table);
            memcpy(wanted, table, sizeof table);
            wanted[i / 8] ^= (uint8_t)(1 << i % 8);
            check(windrow_put_flag(table, 1801 + i, on), "flag not put", 1801 + i);
            check(memcmp(wanted, table, sizeof table) == 0, "not that bit alone", 1801 + i);
        }
}

/* The bytes of records, for groups about the ends of every row, in every place in turn with an int16 behind them. */
static void write_sizes(void)
{
    static const uint16_t firsts[] = {0,    1,    1800, 1801, 1928, 1929, 3000, 3001,  3064,  4001,
                                      4032, 5101, 5164, 7101, 7228, 7229, 14001, 14016, 14017, 65535};
    static const uint16_t counts[] = {0, 1, 2, 7, 8, 9, 16, 17, 61, 128, 129, 65535};
    unsigned place = 0;
    for (size_t i = 0; i < sizeof firsts / sizeof firsts[0]; i++)
        for (size_t k = 0; k < sizeof counts / sizeof counts[0]; k++) {
            uint16_t groups[WINDROW_GROUP_NUMBERS] = {0};
            groups[2 * place] = firsts[i];
            groups[2 * place + 1] = counts[k];
            place = (place + 1) % WINDROW_PLACES;
            groups[2 * place] = 3001;
            groups[2 * place + 1] = 1;
            printf("(%u, %u): %zu\n", firsts[i], counts[k], windrow_record_bytes(groups));
        }
}

/* A text that is put from where it stands in the table stays. */
static void put_in_place(void)
{
    memset(table, 0, sizeof table);
    check(windrow_put_text(table, 4002, "pile"), "not put", 4002);
    check(windrow_put_text(table, 4002, (const char *)&table[WINDROW_TEXT8S_AT + 8]), "not put", 4002);
    check(memcmp(&table[WINDROW_TEXT8S_AT], "\0\0\0\0\0\0\0\0pile\0\0\0", 16) == 0, "not as it was", 4002);
}

/* Each byte as it is captured, written down by hand: 00 and 20 to 7E hex stay, and 3F hex stands for all others. */
static const uint8_t cleaned[256] = {
    0x00, 0x3F, 0x3F, 0x3F, 0x3F, 0x3F, 0x3F, 0x3F, 0x3F, 0x3F, 0x3F, 0x3F, 0x3F, 0x3F, 0x3F, 0x3F,
    0x3F, 0x3F, 0x3F, 0x3F, 0x3F, 0x3F, 0x3F, 0x3F, 0x3F, 0x3F, 0x3F, 0x3F, 0x3F, 0x3F, 0x3F, 0x3F,
    0x20, 0x21, 0x22, 0x23, 0x24, 0x25, 0x26, 0x27, 0x28, 0x29, 0x2A, 0x2B, 0x2C, 0x2D, 0x2E, 0x2F,
    0x30, 0x31, 0x32, 0x33, 0x34, 0x35, 0x36, 0x37, 0x38, 0x39, 0x3A, 0x3B, 0x3C, 0x3D, 0x3E, 0x3F,
    0x40, 0x41, 0x42, 0x43, 0x44, 0x45, 0x46, 0x47, 0x48, 0x49, 0x4A, 0x4B, 0x4C, 0x4D, 0x4E, 0x4F,
    0x50, 0x51, 0x52, 0x53, 0x54, 0x55, 0x56, 0x57, 0x58, 0x59, 0x5A, 0x5B, 0x5C, 0x5D, 0x5E, 0x5F,
    0x60, 0x61, 0x62, 0x63, 0x64, 0x65, 0x66, 0x67, 0x68, 0x69, 0x6A, 0x6B, 0x6C, 0x6D, 0x6E, 0x6F,
    0x70, 0x71, 0x72, 0x73, 0x74, 0x75, 0x76, 0x77, 0x78, 0x79, 0x7A, 0x7B, 0x7C, 0x7D, 0x7E, 0x3F,
    0x3F, 0x3F, 0x3F, 0x3F, 0x3F, 0x3F, 0x3F, 0x3F, 0x3F, 0x3F, 0x3F, 0x3F, 0x3F, 0x3F, 0x3F, 0x3F,
    0x3F, 0x3F, 0x3F, 0x3F, 0x3F, 0x3F, 0x3F, 0x3F, 0x3F, 0x3F, 0x3F, 0x3F, 0x3F, 0x3F, 0x3F, 0x3F,
    0x3F, 0x3F, 0x3F, 0x3F, 0x3F, 0x3F, 0x3F, 0x3F, 0x3F, 0x3F, 0x3F, 0x3F, 0x3F, 0x3F, 0x3F, 0x3F,
    0x3F, 0x3F, 0x3F, 0x3F, 0x3F, 0x3F, 0x3F, 0x3F, 0x3F, 0x3F, 0x3F, 0x3F, 0x3F, 0x3F, 0x3F, 0x3F,
    0x3F, 0x3F, 0x3F, 0x3F, 0x3F, 0x3F, 0x3F, 0x3F, 0x3F, 0x3F, 0x3F, 0x3F, 0x3F, 0x3F, 0x3F, 0x3F,
    0x3F, 0x3F, 0x3F, 0x3F, 0x3F, 0x3F, 0x3F, 0x3F, 0x3F, 0x3F, 0x3F, 0x3F, 0x3F, 0x3F, 0x3F, 0x3F,
    0x3F, 0x3F, 0x3F, 0x3F, 0x3F, 0x3F, 0x3F, 0x3F, 0x3F, 0x3F, 0x3F, 0x3F, 0x3F, 0x3F, 0x3F, 0x3F,
    0x3F, 0x3F, 0x3F, 0x3F, 0x3F, 0x3F, 0x3F, 0x3F, 0x3F, 0x3F, 0x3F, 0x3F, 0x3F, 0x3F, 0x3F, 0x3F,
};

static void clean_bytes(void)
{
    for (uint32_t byte = 0; byte < 256; byte++)
        check_of(windrow_clean_byte((uint8_t)byte) == cleaned[byte], "not as it is captured", "byte", byte);
}

/* A text of nothing but this byte is in the table, and is got back, as it was put. */
static void keep_bytes(uint32_t point, size_t at, size_t size)
{
    for (uint32_t byte = 1; byte < 256; byte++) {
        char text[17] = {0}, got[17] = {0};
        memset(text, (int)byte, size);
        memset(table, 0, sizeof table);
        check_of(windrow_put_text(table, point, text) && memcmp(&table[at], text, size) == 0, "not put as it is", "byte", byte);
        check_of(windrow_get_text(table, point, got) && memcmp(got, text, sizeof got) == 0, "not got as it is", "byte", byte);
    }
}

int main(void)
{
    put_all();
    write_table();
    write_sizes();
    refuse_all();
    neighbours();
    put_in_place();
    clean_bytes();
    keep_bytes(4032, 392, 8);
    keep_bytes(14001, 1168, 16);
    return failures != 0;
}
