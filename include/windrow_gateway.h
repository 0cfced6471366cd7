/*
 * windrow_gateway.h: the gateway's archive and its answers to Modbus polls, for its firmware. Link libwindrow_gateway.a
 * (`pkg-config --libs windrow-gateway`), or libgateway.a out of the tree that builds it.
 *
 * A program holds one struct windrow_state and the archive memory, and calls the functions at the end of this file,
 * windrow_fresh to windrow_poll, with a pointer to the state. Each answers the service card's number: 0 is done, anything else a
 * refusal, and then state and archive are as they were (a refused windrow_fresh leaves a state of zeros). windrow_card_word has
 * the card's word for a number. They stand on the proved functions, windrow_gateway_fresh to windrow_gateway_poll, which take
 * the state by value and answer a struct with the new one, and of which the comments below speak.
 *
 * Nothing is allocated or kept. Any content of state and archive is answered: an archive of another length than the state's by
 * WINDROW_MEMORY (1), a state against the rules by WINDROW_FOREIGN (2), and then the call's own numbers, the lowest first.
 * Arguments that are judged come in 32 bits, so that none is cut before it is judged; a limit and the group numbers have 16
 * bits, of which any value is one: hold a limit against WINDROW_MOST_RECORDS before it is cut. Only a bool that is neither 0 nor
 * 1 must not be handed in, the pointers must not be null, even with a length of 0, but where that is allowed below, and what a
 * call writes, an archive, a reply buffer or a state by pointer, must not overlap what else is handed in with it.
 *
 * Threads: there is no shared or global data. Calls on different states and archives may run at the same time; those on one state
 * and its archive must come one after the other. Nothing may write into a live table while a scan or a poll is lent it: where
 * probes fill one at any time, lend a copy.
 *
 * Stack: a call needs at most WINDROW_STACK_BYTES, the state that is handed over and the answer included. A reading-end call
 * needs less than 1 KiB (windrow_reader.h).
 *
 * Stored states: keep state and archive together, as of the same moment (in one file, synced and renamed, with a checksum), and
 * WINDROW_STATE_FORMAT with them. fresh, start and scan write the archive; one call other than fresh that leaves every byte of the
 * state as it was has left the archive so too, so it is enough to store after each call that changed the state. Compare before and
 * after each call and not with the state stored last: over several calls a file can go round once, and then the state's bytes are
 * those of before and the archive's are not. Take the bytes back through windrow_state_from_bytes, with the format that was stored
 * with them; it refuses another format and a bool that is none. The calls judge the rest of a state, but of the archive only its
 * length: damaged bytes, or those of another moment, are not noticed. A poll with a frame of 0 bytes judges a state and changes
 * nothing; it is lent a live table like any other. The live table is part of neither state nor archive, and is not stored. Running
 * is stored, so that no start is needed at power-up, and so are the Booleans: the first scan then compares with those of before.
 * Where state.flags.pending is on, a start would empty every file.
 *
 * States of format 1, as releases 1 and 2 stored them, go on with all their records, as of gateways of firmware 74, over the
 * archive as it is; store them as of format 2 from then on. Make no fresh gateway where the format is 1, nor where the first call
 * refuses a state with 2: that would set the archive to zeros. A state with which no format was stored is of format 1 where its
 * firmware is 0 and its unit 1 to 247.
 */
#ifndef WINDROW_GATEWAY_H
#define WINDROW_GATEWAY_H

#include <stdbool.h>
#include <stddef.h>
#include <stdint.h>
#include <string.h>

#include "windrow_card.h"
#include "windrow_limits.h"
#include "windrow_points.h"
#include "windrow_stamp.h"
#include "windrow_version.h"

#ifdef __cplusplus
extern "C" {
#endif

/*
 * The state, in the parts by which calls change it. No struct has a padding byte, so a saved state can be compared, copied and
 * checksummed byte by byte. Index 0 is file 1 or slot 1; the eleventh file is the alarm file.
 */

/* What fresh fixes: the archive's length, our unit (1-247), the date order and the firmware (73 or 74). */
struct windrow_site {
    uint32_t archive_length;
    uint8_t unit;
    bool day_first;
    uint16_t firmware; /* by which the alarm file has 150 or 500 records: WINDROW_ALARM_RECORDS */
};

struct windrow_flags {
    bool running;
    bool unlocked;
    bool pending; /* the next start lays out the draft and empties every file */
};

/* The Booleans of the latest accepted scan, if there was one. */
struct windrow_seen {
    bool scanned;
    uint8_t booleans[16];
};

/*
 * The definitions of files 1-10. The 32 group numbers of file f, a first point and a number of points for each of 16 places,
 * start at groups[32 * (f - 1)]; the most records that it holds are limits[f - 1], and 0 is an idle file.
 */
struct windrow_definitions {
    uint16_t groups[320];
    uint16_t limits[10];
};

/*
 * An alarm slot: a Boolean point or 0 for off, the transducer's float point or 0, and a type 0-3. Types 0 and 2 log any change
 * of the point, 1 and 3 a rise only; else they are alike, and the record carries the type for whoever reads it. Mind the order:
 * the call has the type before the transducer.
 */
struct windrow_slot {
    uint16_t point;
    uint16_t transducer;
    uint16_t type;
};

/* What define, trigger and alarm set. */
struct windrow_settings {
    struct windrow_definitions draft;
    uint16_t triggers[10]; /* a Boolean point, or 0 for none */
    struct windrow_slot slots[32];
};

/* What captures and reads follow: the draft of the latest pending start, and for each file the record captured last, 0 for none. */
struct windrow_files {
    struct windrow_definitions layout;
    uint16_t pointers[11];
};

/* The record of each file that a poll of 700+f or 750+f reads. */
struct windrow_line {
    uint16_t requested[11];
};

/* All that the gateway knows but the archive's bytes. */
struct windrow_state {
    struct windrow_site site;
    struct windrow_flags flags;
    struct windrow_seen seen;
    struct windrow_files files;
    struct windrow_line line;
    struct windrow_settings settings;
};

struct windrow_gateway_answer {
    uint32_t number;
    uint32_t carried; /* 0 but for WINDROW_GROUP (7) */
    struct windrow_state state;
};

/*
 * A new gateway over archive memory, which is set to zeros: for the first start only, since one that has a stored state takes that
 * back. It is refused with the first of these that applies, and then hands back a state of zeros and leaves the memory alone:
 *
 *   2 where the firmware is neither WINDROW_FIRMWARE_73 nor WINDROW_FIRMWARE_74; it is judged in 32 bits, so that 329 is not 73
 *   1 where the memory is not of WINDROW_LEAST_ARCHIVE(firmware), 3,300 or 11,000, to 1,048,576 bytes
 *   2 where the unit is not 1-247
 *
 * The firmware says how many records the alarm file (11) has, 150 for 73 and 500 for 74, and nothing else: the limit in its
 * register, the numbers that can be read and requested, where it goes round, and the room that is left for files 1-10 follow from
 * that. Take 74, but 73 for a site whose drivers were made for the older firmware: with 74 those that stop at record 150 miss
 * alarms, and those that go on find no end there. With 73 record 150 is the last, and a poll of 151 is answered with
 * WINDROW_ILLEGAL_VALUE. Like unit and date order it is fixed here: a stored state keeps it, and only another fresh, which empties
 * every file, makes a gateway of the other firmware.
 */
struct windrow_gateway_answer windrow_gateway_fresh(bool day_first, uint32_t unit, uint32_t firmware, uint8_t *archive,
                                                    size_t archive_length);

/*
 * Unlocked and pending on, so that files can be defined. Refused with 10 while running. There is no way back: lock does not take
 * pending off, and the next start empties every file, even where nothing was defined. Read what is needed first.
 */
struct windrow_gateway_answer windrow_gateway_unlock(struct windrow_state state, const uint8_t *archive, size_t archive_length);

/* Unlocked off, so that no file can be defined; pending stays as it is. */
struct windrow_gateway_answer windrow_gateway_lock(struct windrow_state state, const uint8_t *archive, size_t archive_length);

/* Running off. */
struct windrow_gateway_answer windrow_gateway_stop(struct windrow_state state, const uint8_t *archive, size_t archive_length);

/*
 * Running on, unlocked off. If pending, the draft becomes the layout, every file is emptied, the whole archive is set to zeros,
 * the requested numbers are 0, and pending is off; refused with 11 where the draft does not fit the archive.
 */
struct windrow_gateway_answer windrow_gateway_start(struct windrow_state state, uint8_t *archive, size_t archive_length);

/*
 * Replaces the draft of a file, 1-10: groups points at 32 numbers, limit is n, the most records. Refused with 5, with 6 while not
 * unlocked, with 7 (carried is the first bad group's place) or with 8.
 */
struct windrow_gateway_answer windrow_gateway_define(struct windrow_state state, const uint8_t *archive, size_t archive_length,
                                                     uint32_t file, const uint16_t *groups, uint16_t limit);

/* The Boolean point whose rise captures a record of a file, 1-10; 0 for none. At any time, empties nothing. Refused with 5 or 9. */
struct windrow_gateway_answer windrow_gateway_trigger(struct windrow_state state, const uint8_t *archive, size_t archive_length,
                                                      uint32_t file, uint32_t point);

/* Sets an alarm slot, 1-32. At any time, empties nothing. Refused with 12; each entry is checked even where point is 0. */
struct windrow_gateway_answer windrow_gateway_alarm(struct windrow_state state, const uint8_t *archive, size_t archive_length,
                                                    uint32_t slot, uint32_t point, uint32_t type, uint32_t transducer);

/*
 * A scan of the live table, 1,424 bytes, at a date and a time (windrow_stamp.h); a clock may go back. The first scan after
 * fresh only remembers the table's Booleans. A later one, if running, compares them with those remembered. Each file of a
 * laid-out limit over 0 whose trigger went from 0 to 1 captures a record of this table and stamp, behind the one captured
 * last, or over record 1 where that was the last record. Its texts are clean (windrow_points.h), while the table keeps its
 * bytes; before 2.2 they were captured as they stood. Slots log to the alarm file: types 0 and 2 any change of their point,
 * types 1 and 3 a rise only. Of one scan the records of points that fell (new bit 0) come first, then those of points that rose
 * (1), each by point, then slot, the lowest number first; before 2.1 all went by point, then slot. Running or not, the Booleans
 * are then remembered. Refused with 3 or 4.
 */
struct windrow_gateway_answer windrow_gateway_scan(struct windrow_state state, uint8_t *archive, size_t archive_length,
                                                   const uint8_t *table, size_t table_length, struct windrow_stamp stamp);

struct windrow_poll_answer {
    uint32_t number;
    uint32_t length; /* the reply's, 0 for none; refused, 0 */
    struct windrow_state state;
};

/*
 * Answers a Modbus RTU frame, which may have any length, 0 and over 256 included. Where a frame ends, by 3.5 characters of
 * silence, is for the caller to find; every frame on the line may be handed in, other units' too. The reply is the first length
 * bytes of the reply buffer, ready to be sent; the bytes past it stay as they were lent. There is none to a frame under 4 or
 * over 256 bytes, with a wrong CRC or for another unit, and none to unit 0, for which a 06 that would not be an exception is
 * done all the same. For file f, 1-11:
 *
 *   03 on 700+f        the record with the requested number, whatever the quantity
 *   03 on 720+f        the record whose number is the quantity
 *   03 on 750+f        the stamp of the record with the requested number, whatever the quantity
 *   03 on 770+f        the stamp of the record whose number is the quantity
 *   03 on 3701-3733    registers, three a file: its laid-out limit, its pointer (the record captured last), its requested number
 *   06 on 3703+3(f-1)  sets the requested number; the reply echoes the frame
 *
 * and of the live table, 1,424 bytes, a run of points within one row, each counting as one whatever its size (windrow_points.h):
 *
 *   01 on 1801-1928               as many flags as the quantity says, packed eight to a byte from the first one asked
 *   03 on a point of another row  as many points as the quantity says, as they stand in the table, but texts clean
 *
 * The table is the one that the poll is lent, whatever was scanned and whether running or not: lend the one that the probes fill.
 * Live points are read before the first scan too, so fill it first. Records are sent as they lie in the archive: a text of one
 * that was captured before 2.2 may have any bytes.
 *
 * The exception is the first that applies: WINDROW_ILLEGAL_FUNCTION to another function; WINDROW_ILLEGAL_VALUE to a frame that
 * is not of 8 bytes; WINDROW_ILLEGAL_ADDRESS to another address, and so to 01 on what is no flag and to 03 on a flag;
 * WINDROW_ILLEGAL_VALUE where a record's number is not 1 to the file's limit, where 0 or over 33 registers are asked for, and where
 * 0 points are asked for or over 250 bytes of them, even where the row has fewer; WINDROW_ILLEGAL_ADDRESS to registers past 3733
 * and to points past their row. Only a 06 changes the state, and of it the requested number alone. Refused with 3 where the
 * table is not of WINDROW_TABLE_BYTES and with 13 where the reply buffer has under WINDROW_LEAST_REPLY bytes, whatever the frame
 * is, one to which there is no reply too; the buffer then stays as lent.
 */
struct windrow_poll_answer windrow_gateway_poll(struct windrow_state state, const uint8_t *archive, size_t archive_length,
                                                const uint8_t *table, size_t table_length, const uint8_t *frame,
                                                size_t frame_length, uint8_t *reply, size_t reply_length);

/* The bytes of a struct windrow_state. A compiler that lays it out otherwise than the library does is stopped here. */
#define WINDROW_STATE_BYTES 1604
typedef char windrow_state_is_laid_out_as_in_the_library[sizeof(struct windrow_state) == WINDROW_STATE_BYTES ? 1 : -1];

/*
 * The most stack that one of these calls needs: 9 KiB for the proved function with the state that it is given and answers, and
 * room for the copies of a state that a compiler makes where it does not optimize.
 */
#define WINDROW_STACK_BYTES 12288

/*
 * The same calls with the state by pointer, for a program that holds one state. Each answers the card's number; refused, the
 * state is as it was, but for windrow_fresh, which then leaves a state of zeros, and that is Foreign to every other call.
 */

static inline uint32_t windrow_fresh(struct windrow_state *state, bool day_first, uint32_t unit, uint32_t firmware,
                                     uint8_t *archive, size_t archive_length)
{
    struct windrow_gateway_answer a = windrow_gateway_fresh(day_first, unit, firmware, archive, archive_length);
    *state = a.state;
    return a.number;
}

static inline uint32_t windrow_unlock(struct windrow_state *state, const uint8_t *archive, size_t archive_length)
{
    struct windrow_gateway_answer a = windrow_gateway_unlock(*state, archive, archive_length);
    *state = a.state;
    return a.number;
}

static inline uint32_t windrow_lock(struct windrow_state *state, const uint8_t *archive, size_t archive_length)
{
    struct windrow_gateway_answer a = windrow_gateway_lock(*state, archive, archive_length);
    *state = a.state;
    return a.number;
}

static inline uint32_t windrow_stop(struct windrow_state *state, const uint8_t *archive, size_t archive_length)
{
    struct windrow_gateway_answer a = windrow_gateway_stop(*state, archive, archive_length);
    *state = a.state;
    return a.number;
}

static inline uint32_t windrow_start(struct windrow_state *state, uint8_t *archive, size_t archive_length)
{
    struct windrow_gateway_answer a = windrow_gateway_start(*state, archive, archive_length);
    *state = a.state;
    return a.number;
}

/* Where the answer is WINDROW_GROUP (7), *bad_place becomes the first bad group's place, 1-16, else 0. bad_place may be null. */
static inline uint32_t windrow_define(struct windrow_state *state, const uint8_t *archive, size_t archive_length, uint32_t file,
                                      const uint16_t groups[WINDROW_GROUP_NUMBERS], uint16_t limit, uint32_t *bad_place)
{
    struct windrow_gateway_answer a = windrow_gateway_define(*state, archive, archive_length, file, groups, limit);
    *state = a.state;
    if (bad_place != NULL)
        *bad_place = a.carried;
    return a.number;
}

static inline uint32_t windrow_trigger(struct windrow_state *state, const uint8_t *archive, size_t archive_length, uint32_t file,
                                       uint32_t point)
{
    struct windrow_gateway_answer a = windrow_gateway_trigger(*state, archive, archive_length, file, point);
    *state = a.state;
    return a.number;
}

static inline uint32_t windrow_alarm(struct windrow_state *state, const uint8_t *archive, size_t archive_length, uint32_t slot,
                                     uint32_t point, uint32_t type, uint32_t transducer)
{
    struct windrow_gateway_answer a = windrow_gateway_alarm(*state, archive, archive_length, slot, point, type, transducer);
    *state = a.state;
    return a.number;
}

static inline uint32_t windrow_scan(struct windrow_state *state, uint8_t *archive, size_t archive_length, const uint8_t *table,
                                    size_t table_length, struct windrow_stamp stamp)
{
    struct windrow_gateway_answer a = windrow_gateway_scan(*state, archive, archive_length, table, table_length, stamp);
    *state = a.state;
    return a.number;
}

/* *to_send becomes the reply's length: that many bytes of the reply buffer are to be sent, none where it is 0 or on a refusal. */
static inline uint32_t windrow_poll(struct windrow_state *state, const uint8_t *archive, size_t archive_length,
                                    const uint8_t *table, size_t table_length, const uint8_t *frame, size_t frame_length,
                                    uint8_t *reply, size_t reply_length, uint32_t *to_send)
{
    struct windrow_poll_answer a = windrow_gateway_poll(*state, archive, archive_length, table, table_length, frame, frame_length,
                                                        reply, reply_length);
    *state = a.state;
    *to_send = a.length;
    return a.number;
}

/*
 * Takes a stored state back, of the format that was stored with it: WINDROW_STATE_FORMAT, or WINDROW_STATE_FORMAT_1, that of
 * releases 1 and 2. Their gateways have 500 alarm records, so that the firmware of such a state becomes 74, whatever the two bytes
 * hold that were reserved there; the archive that was stored with it goes with it as it is. Answers false, and leaves *state alone,
 * where the format is another, or a byte that is to be a bool is neither 0 nor 1: such bytes were never a state. A state that is
 * taken may still be Foreign; the first call says so.
 */
static inline bool windrow_state_from_bytes(struct windrow_state *state, const uint8_t bytes[WINDROW_STATE_BYTES],
                                            uint32_t format)
{
    static const size_t bools[] = {
        offsetof(struct windrow_state, site) + offsetof(struct windrow_site, day_first),
        offsetof(struct windrow_state, flags) + offsetof(struct windrow_flags, running),
        offsetof(struct windrow_state, flags) + offsetof(struct windrow_flags, unlocked),
        offsetof(struct windrow_state, flags) + offsetof(struct windrow_flags, pending),
        offsetof(struct windrow_state, seen) + offsetof(struct windrow_seen, scanned),
    };
    if (format != WINDROW_STATE_FORMAT && format != WINDROW_STATE_FORMAT_1)
        return false;
    for (size_t i = 0; i < sizeof bools / sizeof bools[0]; i++)
        if (bytes[bools[i]] > 1)
            return false;
    memmove(state, bytes, sizeof *state); /* they may be the same memory */
    if (format == WINDROW_STATE_FORMAT_1)
        state->site.firmware = WINDROW_FIRMWARE_74;
    return true;
}

#ifdef __cplusplus
}
#endif

#endif
