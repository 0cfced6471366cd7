/*
 * windrow_limits.h: sizes, limits and Modbus addresses. windrow_reader.h and windrow_gateway.h include it.
 */
#ifndef WINDROW_LIMITS_H
#define WINDROW_LIMITS_H

/*
 * A file's definition: 16 places, each a group of a first point and a number of points. (0, 0) is unused and may stand anywhere;
 * any other group has at least one point, all in one row of the live table (windrow_points.h). Points may repeat. A file without
 * groups records stamps alone.
 */
#define WINDROW_PLACES 16
#define WINDROW_GROUP_NUMBERS 32

/*
 * Files 1-10 are defined by the user; file 11 is the alarm file. A file's limit, n, is the most records that it holds: 0 (idle)
 * to 65,535.
 */
#define WINDROW_FILES 10
#define WINDROW_ALARM_FILE 11
#define WINDROW_MOST_RECORDS 65535
#define WINDROW_ALARM_SLOTS 32

/*
 * A gateway's firmware, which is fixed when it is made: both are in use, and there is no other. The alarm file's limit is 150 below
 * 74 and 500 from 74 on, and nothing else depends on the firmware. A driver that does not know it asks the gateway for the limit:
 * register WINDROW_LIMIT_REGISTER(WINDROW_ALARM_FILE), 3731. To poll a record past the limit is an exception.
 */
#define WINDROW_FIRMWARE_73 73
#define WINDROW_FIRMWARE_74 74
#define WINDROW_ALARM_RECORDS(firmware) ((firmware) < WINDROW_FIRMWARE_74 ? 150 : 500)

/*
 * Bytes: the live table, a record's stamp, the longest record with its stamp, an alarm record, a gateway's archive memory, of which
 * the least is the alarm file: 3,300 for firmware 73 and 11,000 for 74. A record is its stamp and then its groups in order
 * (windrow_record_bytes in windrow_points.h); the archive has to hold n records of each file and the alarm file, or a start is
 * refused with WINDROW_ROOM (11). With a constant firmware, the macros that take one can be an array's size.
 */
#define WINDROW_TABLE_BYTES 1424
#define WINDROW_STAMP_BYTES 6
#define WINDROW_LONGEST_RECORD 250
#define WINDROW_ALARM_BYTES 22
#define WINDROW_LEAST_ARCHIVE(firmware) (WINDROW_ALARM_RECORDS(firmware) * WINDROW_ALARM_BYTES)
#define WINDROW_MOST_ARCHIVE 1048576

/* A stamp's year counts from here: year 7 is 2007. */
#define WINDROW_CENTURY 2000

/* Modbus RTU: our unit, the bytes of a request, the longest frame, the least length of a poll's reply buffer. */
#define WINDROW_LEAST_UNIT 1
#define WINDROW_MOST_UNIT 247
#define WINDROW_REQUEST_BYTES 8
#define WINDROW_LONGEST_FRAME 256
#define WINDROW_LEAST_REPLY 256

/* The most bytes of data in one reply: a record's, or those of live points. */
#define WINDROW_MOST_DATA 250

/*
 * The data starts here in a reply to 01 or 03: a record's bytes, registers or live points. The CRC follows it, so that a reply is 5
 * bytes longer than its data.
 */
#define WINDROW_RECORD_AT 3

/*
 * The functions that a gateway knows: 01 reads flags of the live table, 03 other points of it and all that stands below, 06 sets a
 * requested number. A live point's address is its number; windrow_points.h says how many of them one poll reads.
 */
#define WINDROW_READ_FLAGS 1
#define WINDROW_READ 3
#define WINDROW_WRITE 6

/* 03 on one of these plus the file's number, 1-11: record or stamp of the requested number, or of the one that is the quantity. */
#define WINDROW_REQUESTED_RECORD 700
#define WINDROW_NUMBERED_RECORD 720
#define WINDROW_REQUESTED_STAMP 750
#define WINDROW_NUMBERED_STAMP 770

/*
 * Registers, three a file, 1-11: its limit n, its pointer (the record captured last, 0 for none), its requested number. 03 reads
 * them, from any one on; 06 sets a requested number, of which there is one a file for all masters. It is 0 after fresh and after
 * every start that lays out, and then a poll of 700+f or 750+f is an exception; a poll of 720+f or 770+f needs none.
 *
 * Oldest first: with pointer p over 0, read p + 1 to n and then 1 to p, and pass over records that are WINDROW_EMPTY (15); one
 * that was captured never is, since its month is not 0. Pass over those, too, that are refused for their stamp alone, as
 * windrow_reader.h says. Read the pointer again at the end. Where it has gone on by c, the c numbers from p + 1 on may hold
 * newer records than they did: drop those rows, and read p + 1 to the new pointer as the newest. A pointer of 0 or another n
 * then means that the file was emptied meanwhile; one that goes round whole is not noticed.
 */
#define WINDROW_FIRST_REGISTER 3701
#define WINDROW_LAST_REGISTER 3733
#define WINDROW_REGISTERS_A_FILE 3
#define WINDROW_LIMIT_REGISTER(file) (WINDROW_FIRST_REGISTER + WINDROW_REGISTERS_A_FILE * ((file)-1))
#define WINDROW_POINTER_REGISTER(file) (WINDROW_LIMIT_REGISTER(file) + 1)
#define WINDROW_REQUESTED_REGISTER(file) (WINDROW_LIMIT_REGISTER(file) + 2)

#endif
