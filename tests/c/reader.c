/*
 * A site driver in C: decodes the Omni bulletin's example (floats 7101-7103 and counters 5101-5103, 29 August 2007 11:36:52),
 * the last days of February, and texts as gateways before 2.2 captured them; asserts the header's layout. The replies are written
 * out by hand; their CRCs were worked out by the bit rule in Python.
 */
#include <assert.h>
#include <stdio.h>
#include <string.h>

#include "stamp_layout.h"
#include "windrow_reader.h"

#define GROUP_NUMBERS 32

static const uint16_t groups[GROUP_NUMBERS + 1] = {7101, 3, 5101, 3}; /* one more than is handed in, but once */

static const uint8_t reply[] = {
    0x01, 0x03, 0x1E,                               /* unit 1, function 03, 30 bytes */
    0x08, 0x1D, 0x07, 0x0B, 0x24, 0x34,             /* 29 August 2007 11:36:52, month first */
    0x3F, 0x80, 0x00, 0x00, 0xC2, 0x28, 0x00, 0x00, /* 1.0, -42.0 */
    0x7F, 0xC0, 0x00, 0x01,                         /* a NaN with a payload, carried bit for bit */
    0x00, 0x00, 0x00, 0x07, 0xFF, 0xFF, 0xFF, 0xFB, /* 7, -5 */
    0x7F, 0xFF, 0xFF, 0xFF,                         /* 2147483647 */
    0xD1, 0x5C};                                   /* CRC, low byte first */

/* Bare stamps at 11:36:52, month first: 29 February 2024, and the 30th, which does not exist. */
static const uint16_t bare_stamp[GROUP_NUMBERS] = {0};
static const uint8_t leap_day[] = {0x01, 0x03, 0x06, 0x02, 0x1D, 0x18, 0x0B, 0x24, 0x34, 0xA1, 0x20};
static const uint8_t no_such_day[] = {0x01, 0x03, 0x06, 0x02, 0x1E, 0x18, 0x0B, 0x24, 0x34, 0xE5, 0x20};

/* A text of 8 and one of 16 with bytes that nothing captures since texts are cleaned. What a record has is read as it is. */
static const uint16_t texts[GROUP_NUMBERS] = {4001, 1, 14001, 1};
static const uint8_t old_texts[] = {
    0x01, 0x03, 0x1E, 0x08, 0x1D, 0x07, 0x0B, 0x24, 0x34,
    0x47, 0x72, 0x81, 0x6E, 0x1F, 0x00, 0x7F, 0xFF,
    0x00, 0x41, 0x80, 0x0A, 0x20, 0x7E, 0x7F, 0x1F, 0x00, 0x00, 0xFF, 0x42, 0x5C, 0x3F, 0x99, 0x00,
    0x53, 0x00};

static void check_layout(void)
{
    assert(sizeof(struct windrow_part) == 16);
    assert(offsetof(struct windrow_part, number) == 0);
    assert(offsetof(struct windrow_part, carried) == 4);
    assert(offsetof(struct windrow_part, place) == 8);
    assert(offsetof(struct windrow_part, length) == 12);
    check_stamp_layout();
    assert(sizeof(struct windrow_stamp_answer) == 16);
    assert(offsetof(struct windrow_stamp_answer, number) == 0);
    assert(offsetof(struct windrow_stamp_answer, carried) == 4);
    assert(offsetof(struct windrow_stamp_answer, stamp) == 8);
    assert(sizeof(struct windrow_point) == 24);
    assert(offsetof(struct windrow_point, number) == 0);
    assert(offsetof(struct windrow_point, carried) == 4);
    assert(offsetof(struct windrow_point, kind) == 8);
    assert(offsetof(struct windrow_point, bits) == 12);
    assert(offsetof(struct windrow_point, place) == 16);
    assert(offsetof(struct windrow_point, length) == 20);
}

static void print_stamp(const uint16_t numbers[GROUP_NUMBERS], const uint8_t *frame, size_t length)
{
    struct windrow_stamp_answer when = windrow_reader_stamp(numbers, GROUP_NUMBERS, false, frame, length);
    printf("refused %u: %u/%u/%02u %02u:%02u:%02u\n", when.number, when.stamp.day, when.stamp.month, when.stamp.year,
           when.stamp.hour, when.stamp.minute, when.stamp.second);
}

static void print_point(uint32_t g, uint32_t e)
{
    struct windrow_point p = windrow_reader_point(groups, GROUP_NUMBERS, false, reply, sizeof reply, g, e);
    if (p.number != WINDROW_DONE)
        printf("place %u point %u: refused %u\n", g, e, p.number);
    else if (p.kind == WINDROW_FLOAT)
        printf("place %u point %u: float %08X\n", g, e, p.bits);
    else
        printf("place %u point %u: kind %u value %d\n", g, e, p.kind, (int)(int32_t)p.bits);
}

/* A text as the record has it, and as windrow_clean_byte hands it on to what can't bear other bytes. */
static void print_text(uint32_t g)
{
    struct windrow_point p = windrow_reader_point(texts, GROUP_NUMBERS, false, old_texts, sizeof old_texts, g, 1);
    assert(p.number == WINDROW_DONE && p.kind == WINDROW_TEXT);
    printf("text in place %u, %u bytes from %u:", g, p.length, p.place);
    for (uint32_t i = 0; i < p.length; i++)
        printf(" %02X", old_texts[p.place + i]);
    printf("; clean:");
    for (uint32_t i = 0; i < p.length; i++)
        printf(" %02X", windrow_clean_byte(old_texts[p.place + i]));
    printf("\n");
}

int main(void)
{
    check_layout();
    print_stamp(groups, reply, sizeof reply);
    print_stamp(bare_stamp, leap_day, sizeof leap_day);
    print_stamp(bare_stamp, no_such_day, sizeof no_such_day);
    struct windrow_part record = windrow_reader_record(groups, GROUP_NUMBERS, false, reply, sizeof reply);
    printf("record: %u bytes from %u\n", record.length, record.place);
    struct windrow_part counters = windrow_reader_stretch(groups, GROUP_NUMBERS, false, reply, sizeof reply, 2);
    printf("place 2: %u bytes from %u\n", counters.length, counters.place);
    for (uint32_t g = 1; g <= 3; g++)
        for (uint32_t e = 1; e <= 3; e++)
            print_point(g, e);
    for (size_t numbers = 31; numbers <= 33; numbers += 2) {
        record = windrow_reader_record(groups, numbers, false, reply, sizeof reply);
        printf("%u numbers: refused %u carrying %u\n", (unsigned)numbers, record.number, record.carried);
    }
    printf("no frame: refused %u\n", windrow_reader_record(groups, GROUP_NUMBERS, false, reply, 0).number);
    print_text(1);
    print_text(2);
    return 0;
}
