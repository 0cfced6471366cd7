/*
 * The smallest site driver: asks unit 1 for record 1 of file 1 and decodes the reply. In place of a serial line it has a reply's
 * bytes, and the same with one bit damaged.
 */
#include <stdio.h>

#include "windrow_reader.h"

/* What file 1 of this gateway records: three temperatures, then three counters from the turner passes on. */
static const uint16_t groups[WINDROW_GROUP_NUMBERS] = {7101, 3, WINDROW_TURNER_PASSES, 3};

/* A reply as it comes over the line. */
static uint8_t reply[] = {
    0x01, 0x03, 0x1E,                                                       /* unit 1, function 03, 30 bytes */
    0x08, 0x1D, 0x07, 0x0B, 0x24, 0x34,                                     /* 29 August 2007 11:36:52, month first */
    0x3F, 0x80, 0x00, 0x00, 0xC2, 0x28, 0x00, 0x00, 0x7F, 0xC0, 0x00, 0x01, /* 1.0, -42.0 and a NaN */
    0x00, 0x00, 0x00, 0x07, 0xFF, 0xFF, 0xFF, 0xFB, 0x7F, 0xFF, 0xFF, 0xFF, /* 7, -5 and 2147483647 */
    0xD1, 0x5C};                                                            /* CRC, low byte first */

/* Whether a call was done; if not, says what it was refused for. */
static bool done(uint32_t number)
{
    if (number != WINDROW_DONE)
        printf("refused: %u, %s\n", (unsigned)number, windrow_card_word(number));
    return number == WINDROW_DONE;
}

static struct windrow_point point(uint32_t place, uint32_t nth)
{
    return windrow_reader_point(groups, WINDROW_GROUP_NUMBERS, false, reply, sizeof reply, place, nth);
}

/* Prints when the record was captured, its second temperature (point 7102) and the turner passes (point 5101). */
static bool decode(void)
{
    struct windrow_stamp_answer when = windrow_reader_stamp(groups, WINDROW_GROUP_NUMBERS, false, reply, sizeof reply);
    struct windrow_point degrees = point(1, 2), passes = point(2, 1);
    if (!done(when.number) || !done(degrees.number) || !done(passes.number))
        return false;
    printf("%d-%02d-%02d %02d:%02d:%02d: %.1f degrees, %d turner passes\n", WINDROW_CENTURY + when.stamp.year, when.stamp.month,
           when.stamp.day, when.stamp.hour, when.stamp.minute, when.stamp.second, (double)windrow_point_float(degrees),
           (int)windrow_point_int(passes));
    return true;
}

int main(void)
{
    uint8_t request[WINDROW_REQUEST_BYTES];
    windrow_request(request, 1, WINDROW_READ, WINDROW_NUMBERED_RECORD + 1, 1);
    printf("request:");
    for (size_t i = 0; i < sizeof request; i++)
        printf(" %02X", request[i]);
    printf("\n");
    if (!decode())
        return 1;
    reply[24] ^= 1; /* 6 turner passes, and no longer the CRC of these bytes */
    return decode() ? 1 : 0;
}
