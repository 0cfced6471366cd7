/*
 * windrow_reader.h: the reading end, for site drivers. Link libwindrow_reader.a (`pkg-config --libs windrow-reader`), or
 * libreader.a out of the tree that builds it.
 *
 * A driver sends a request (windrow_request makes its 8 bytes) and hands the reply to the functions here. Those on a record take
 * the file's group numbers (32 of them: a first point and a number of points for each of the 16 places), the gateway's date
 * order and the reply frame to a Modbus 03 poll of one record, and answer a struct. `number` is the service card's: 0 is done,
 * anything else a refusal, and then the other fields are 0 but for `carried`, which WINDROW_GROUP (7) sets to the first bad
 * group's place; windrow_card_word has the number's word. A reply that carries a stamp only (a poll of 750+f or 770+f) is read
 * with 32 zeros for the groups, a record of the alarm file (file 11) with windrow_read_alarm. An exception is no record and is
 * refused with WINDROW_GARBLED (14); windrow_reply_exception tells one, windrow_reply_registers reads a reply with registers,
 * and the reply to a 06 is the request's own 8 bytes.
 *
 * Live points (windrow_points.h says which function reads which, and how many) come without a stamp. windrow_reply_points puts
 * them into a table of the driver's own, where the accessors get their values; the functions on a record are not for them. Those
 * refuse a reply to 01 with 14, but a reply to 03 with live points they judge as a record: where it has the record's size and its
 * first six bytes pass for a stamp, they give wrong values and no refusal.
 *
 * 14 is for the stamp alone where the reply has its CRC (windrow_has_crc), the unit asked, function 3, the record's size
 * (windrow_record_bytes; WINDROW_ALARM_BYTES of the alarm file) as byte count, and 5 bytes more in all. If the other date order
 * reads it, the date order given may be the wrong one. If not, leave the record out and go on with the next: it is damaged, or
 * of a gateway before 1.1, which filed days that their months lack, 30 February say; a gateway sends what it holds.
 *
 * A reply tells neither its file, its record's number, its groups, its date order nor its live points. Compare frame[0] with the
 * unit that was asked, and throw away what has come in before each request, a late reply after a time-out too. Other groups of the
 * same size, and the other date order on days 1 to 12, give wrong values and no refusal. A reply is complete with 5 bytes more than
 * its third byte says, an exception with 5, and an echo with 8. How to read a file's records oldest first says windrow_limits.h.
 *
 * Nothing is allocated or kept, and nothing changed but the request, the registers or the table that an inline function is given
 * to write, which must not overlap the frame. Any length and content of groups and frame is answered. Only a bool that is neither
 * 0 nor 1 must not be handed in, and the pointers must not be null, even with a length of 0. There is no shared or global data:
 * calls may run in any threads at the same time. A call needs less than 1 KiB of stack.
 *
 * The functions that are declared here without a body are proved; the inline ones stand on them, and are tested.
 */
#ifndef WINDROW_READER_H
#define WINDROW_READER_H

#include <stdbool.h>
#include <stddef.h>
#include <stdint.h>
#include <string.h>

#include "windrow_card.h" /* of whose numbers the reading end answers 0, 7, 8, 14, 15 and 16 */
#include "windrow_limits.h"
#include "windrow_points.h"
#include "windrow_stamp.h"
#include "windrow_version.h"

#ifdef __cplusplus
extern "C" {
#endif

/* A part of the frame: length bytes from frame[place] on. This place counts the frame's bytes from 0. */
struct windrow_part {
    uint32_t number;
    uint32_t carried;
    uint32_t place;
    uint32_t length;
};

struct windrow_stamp_answer {
    uint32_t number;
    uint32_t carried;
    struct windrow_stamp stamp;
};

/*
 * A point's value: see enum windrow_kind (windrow_points.h) for what bits, place and length mean; those that its kind does not
 * use are 0. A text has no zero behind it and may be filled up with zeros: printf("%.*s", (int)p.length, (const char *)frame +
 * p.place). A 00 may also stand in the middle of one, and there %.*s ends.
 *
 * A text's bytes are those that the record has. In one that was captured by 2.2 or later they are 00 and 20 to 7E hex alone. One
 * that an earlier release has captured may have any, and stays in the archive when the gateway is brought up to date; a reply does
 * not tell which it is. So what can't bear other bytes hands each through windrow_clean_byte (windrow_points.h), which leaves
 * those of a clean text as they are, 00 too. What compares texts finds there what to do first.
 */
struct windrow_point {
    uint32_t number;
    uint32_t carried;
    uint32_t kind;
    uint32_t bits;
    uint32_t place;
    uint32_t length;
};

/* The record in a frame: the part that starts at byte 3. */
struct windrow_part windrow_reader_record(const uint16_t *groups, size_t group_numbers, bool day_first,
                                          const uint8_t *frame, size_t frame_length);

/* The record's date and time. */
struct windrow_stamp_answer windrow_reader_stamp(const uint16_t *groups, size_t group_numbers, bool day_first,
                                                 const uint8_t *frame, size_t frame_length);

/* The bytes of the group in place g of the definition, 1-16; an unused place names nothing. */
struct windrow_part windrow_reader_stretch(const uint16_t *groups, size_t group_numbers, bool day_first,
                                           const uint8_t *frame, size_t frame_length, uint32_t g);

/* Point e of the group in place g of the definition, both counted from 1. */
struct windrow_point windrow_reader_point(const uint16_t *groups, size_t group_numbers, bool day_first,
                                          const uint8_t *frame, size_t frame_length, uint32_t g, uint32_t e);

/* The Modbus CRC of any bytes. A frame ends in that of all its bytes before, low byte first. */
uint16_t windrow_reader_crc(const uint8_t *bytes, size_t length);

/* The value of a point of kind WINDROW_FLOAT. */
static inline float windrow_point_float(struct windrow_point point)
{
    float value;
    memcpy(&value, &point.bits, sizeof value);
    return value;
}

/* The value of a point of kind WINDROW_INT16 or WINDROW_INT32; of a flag, 0 or 1. */
static inline int32_t windrow_point_int(struct windrow_point point)
{
    int32_t value;
    memcpy(&value, &point.bits, sizeof value);
    return value;
}

/*
 * Makes a request: function WINDROW_READ or WINDROW_READ_FLAGS with a quantity, or WINDROW_WRITE with a value. windrow_limits.h has
 * the addresses; the address goes out as it is, with nothing taken off.
 */
static inline void windrow_request(uint8_t request[WINDROW_REQUEST_BYTES], uint8_t unit, uint8_t function, uint16_t address,
                                   uint16_t quantity_or_value)
{
    request[0] = unit;
    request[1] = function;
    windrow_put_bytes(&request[2], 2, address);
    windrow_put_bytes(&request[4], 2, quantity_or_value);
    uint16_t crc = windrow_reader_crc(request, 6);
    request[6] = (uint8_t)crc;
    request[7] = (uint8_t)(crc >> 8);
}

/* Whether a frame ends in its CRC; false under 4 bytes, which no frame has. */
static inline bool windrow_has_crc(const uint8_t *frame, size_t frame_length)
{
    if (frame_length < 4)
        return false;
    uint16_t crc = windrow_reader_crc(frame, frame_length - 2);
    return frame[frame_length - 2] == (uint8_t)crc && frame[frame_length - 1] == crc >> 8;
}

/* The exception that a frame is, or 0 where it is none with a right CRC. windrow_exception_word has its word. */
static inline uint32_t windrow_reply_exception(const uint8_t *frame, size_t frame_length)
{
    return frame_length == 5 && (frame[1] & 0x80) != 0 && windrow_has_crc(frame, frame_length) ? frame[2] : 0;
}

/* Takes `count` registers, 1-33, out of a reply to 03; false, and nothing is taken, where it is no reply with so many. */
static inline bool windrow_reply_registers(const uint8_t *frame, size_t frame_length, uint16_t *registers, size_t count)
{
    if (count < 1 || count > WINDROW_LAST_REGISTER - WINDROW_FIRST_REGISTER + 1)
        return false;
    if (frame_length != 5 + 2 * count || frame[1] != WINDROW_READ || frame[2] != 2 * count || !windrow_has_crc(frame, frame_length))
        return false;
    for (size_t i = 0; i < count; i++)
        registers[i] = (uint16_t)windrow_get_bytes(&frame[WINDROW_RECORD_AT + 2 * i], 2);
    return true;
}

/*
 * Puts live points, `count` of them from `first` on, out of the reply to a poll of them into a table, in which nothing else
 * changes; windrow_get_flag to windrow_get_text get their values there. False, and nothing is put, where one poll can't read these
 * points (windrow_points.h) or this is no reply with so many bytes, by their function and with a right CRC.
 *
 * Hand in the first point and the count that were asked: any reply by the same function with so many bytes is taken, a record too,
 * and of flags any count that takes as many bytes. The accessors can't tell which points were put. Texts are put as they come:
 * gateways since 2.2 send them clean (windrow_points.h), those of 2.0 and 2.1 with any bytes.
 */
static inline bool windrow_reply_points(const uint8_t *frame, size_t frame_length, uint8_t table[WINDROW_TABLE_BYTES],
                                        uint32_t first, uint32_t count)
{
    struct windrow_row row = windrow_row_of(first);
    if (count < 1 || count > windrow_most_points(row) || first + count - 1 > row.last)
        return false;
    size_t bytes = windrow_points_bytes(row, count);
    if (frame_length != 5 + bytes || frame[1] != windrow_function_for(row) || frame[2] != bytes
        || !windrow_has_crc(frame, frame_length))
        return false;
    const uint8_t *data = &frame[WINDROW_RECORD_AT];
    if (row.kind != WINDROW_FLAG)
        memcpy(&table[windrow_point_at(row, first)], data, bytes);
    else
        for (uint32_t i = 0; i < count; i++)
            windrow_put_flag(table, first + i, data[i / 8] >> i % 8 & 1);
    return true;
}

/*
 * A record of the alarm file: the slot's point and type, the point's new bit, the transducer's value (0 where the slot has none),
 * and turner passes and litres of water at the time. None but the stamp is judged: they are what the record has.
 */
struct windrow_alarm_answer {
    uint32_t number;
    struct windrow_stamp stamp;
    uint16_t point;
    uint8_t type;
    uint8_t bit;
    float transducer;
    int32_t passes, litres;
};

/*
 * The groups by which an alarm record is read: it has the shape of two 16-bit points (the point; type and bit), a float and two
 * 32-bit points.
 */
#define WINDROW_ALARM_GROUPS {3001, 1, 3002, 1, 7101, 1, 5101, 2}

/*
 * The alarm record in a reply to 03 on 711 or 731. Refused with 14 or 15. There are 150 or 500, by the gateway's firmware: the
 * alarm file's limit register says. The newest is the one at its pointer. Of one scan's records those with bit 0 (cleared) come
 * first, then those with 1 (raised), each by point, then slot; before 2.1 all went by point, then slot. So the newest has bit 1
 * where the last scan that logged anything raised anything. A newest one with bit 0 does not say that no alarm stands: the flags
 * do (01 on 1801-1928).
 */
static inline struct windrow_alarm_answer windrow_read_alarm(bool day_first, const uint8_t *frame, size_t frame_length)
{
    static const uint16_t groups[WINDROW_GROUP_NUMBERS] = WINDROW_ALARM_GROUPS;
    struct windrow_alarm_answer alarm;
    memset(&alarm, 0, sizeof alarm);
    struct windrow_stamp_answer when = windrow_reader_stamp(groups, WINDROW_GROUP_NUMBERS, day_first, frame, frame_length);
    alarm.number = when.number;
    if (when.number != WINDROW_DONE)
        return alarm;
    uint32_t bits[5]; /* and not five points, for the stack's sake */
    static const uint8_t place[5] = {1, 2, 3, 4, 4}, point[5] = {1, 1, 1, 1, 2};
    for (int i = 0; i < 5; i++)
        bits[i] = windrow_reader_point(groups, WINDROW_GROUP_NUMBERS, day_first, frame, frame_length, place[i], point[i]).bits;
    alarm.stamp = when.stamp;
    alarm.point = (uint16_t)bits[0];
    alarm.type = (uint8_t)(bits[1] >> 8);
    alarm.bit = (uint8_t)bits[1];
    memcpy(&alarm.transducer, &bits[2], sizeof alarm.transducer);
    memcpy(&alarm.passes, &bits[3], sizeof alarm.passes);
    memcpy(&alarm.litres, &bits[4], sizeof alarm.litres);
    return alarm;
}

#ifdef __cplusplus
}
#endif

#endif
