/*
 * The smallest firmware: a gateway whose file 1 keeps 96 records, one for each time that the turner starts (point 1801 comes on).
 * It scans five times and answers two polls, of a record and of what a probe reads now. In place of probes, a clock and a serial
 * line it has their numbers.
 */
#include <stdio.h>

#include "windrow_gateway.h"

#define TURNER 1801
#define DEGREES 3001

static struct windrow_state state;
static uint8_t archive[65536];
static uint8_t table[WINDROW_TABLE_BYTES]; /* what the probes have read */

/* Whether a call was done; if not, says which was refused and what for. */
static bool done(const char *call, uint32_t number)
{
    if (number != WINDROW_DONE)
        printf("%s refused: %u, %s\n", call, (unsigned)number, windrow_card_word(number));
    return number == WINDROW_DONE;
}

/*
 * Makes a gateway whose file 1 has these groups, and starts it; stops at the first call that is refused. Its firmware is 74, so
 * that it keeps 500 alarms. This is for a first start, since fresh sets the archive to zeros: a gateway that has stored its state
 * and archive takes them back (windrow_state_from_bytes, with the format that it stored) and goes on.
 */
static bool begin(const uint16_t groups[WINDROW_GROUP_NUMBERS])
{
    uint32_t bad_place = 0;
    bool running = done("fresh", windrow_fresh(&state, false, 17, WINDROW_FIRMWARE_74, archive, sizeof archive))
                   && done("unlock", windrow_unlock(&state, archive, sizeof archive))
                   && done("define", windrow_define(&state, archive, sizeof archive, 1, groups, 96, &bad_place))
                   && done("trigger", windrow_trigger(&state, archive, sizeof archive, 1, TURNER))
                   && done("start", windrow_start(&state, archive, sizeof archive));
    if (bad_place != 0)
        printf("the group at place %u is bad\n", (unsigned)bad_place);
    return running;
}

/* Once a cycle. Where the turner is on and was not at the last scan, this writes a record of file 1 into the archive. */
static bool cycle(bool turner, int16_t degrees, struct windrow_stamp now)
{
    return windrow_put_flag(table, TURNER, turner) && windrow_put_int16(table, DEGREES, degrees)
           && done("scan", windrow_scan(&state, archive, sizeof archive, table, sizeof table, now));
}

/* Answers a frame that came over the line, live points out of the table; here the reply is printed. */
static bool answer(const uint8_t *frame, size_t length)
{
    uint8_t reply[WINDROW_LEAST_REPLY];
    uint32_t to_send;
    if (!done("poll", windrow_poll(&state, archive, sizeof archive, table, sizeof table, frame, length, reply, sizeof reply,
                                   &to_send)))
        return false;
    printf("reply:");
    for (uint32_t i = 0; i < to_send; i++)
        printf(" %02X", reply[i]);
    printf("\n");
    return true;
}

int main(void)
{
    static const uint16_t past_the_row[WINDROW_GROUP_NUMBERS] = {7228, 2}, one_reading[WINDROW_GROUP_NUMBERS] = {DEGREES, 1};
    static const int16_t degrees[] = {61, 62, 58, -5, 57};
    static const uint8_t record[] = {0x11, 0x03, 0x02, 0xD1, 0x00, 0x02, 0x97, 0x1A}; /* unit 17, 03 on 721: file 1, record 2 */
    static const uint8_t live[] = {0x11, 0x03, 0x0B, 0xB9, 0x00, 0x01, 0x55, 0x5B};   /* unit 17, 03 on 3001: one point */
    if (begin(past_the_row) || !begin(one_reading)) /* 7228 is the last float, so that two from there on are refused */
        return 1;
    for (uint8_t i = 0; i < 5; i++) {
        struct windrow_stamp now = {8, 29, 7, 11, 36, (uint8_t)(50 + i)};
        if (!cycle(i % 2 == 1, degrees[i], now))
            return 1;
    }
    return answer(record, sizeof record) && answer(live, sizeof live) ? 0 : 1;
}
