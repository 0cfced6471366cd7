/*
 * windrow_card.h: the numbers of the service card and of Modbus exceptions, with their words. windrow_reader.h and
 * windrow_gateway.h include it.
 */
#ifndef WINDROW_CARD_H
#define WINDROW_CARD_H

#include <stdint.h>

/*
 * The number that a call answers. The lowest that applies is answered; where none applies, the call does its work. Fresh alone
 * answers a 2, that for its firmware, before 1.
 */
enum windrow_card {
    WINDROW_DONE = 0,
    WINDROW_MEMORY = 1,   /* the archive's length is not the state's; fresh: under 11,000 (firmware 73: under 3,300) or over
                             1,048,576 */
    WINDROW_FOREIGN = 2,  /* a state in which running and unlocked are both on, a definition, trigger or slot is against its rule,
                             the layout exceeds the archive, a pointer or requested number is over n, the unit is not 1-247 or the
                             firmware neither 73 nor 74, as in the zeros of a refused fresh; fresh: the firmware, before 1 is
                             looked for, or the unit */
    WINDROW_TABLE = 3,    /* the live table that a scan or a poll is lent is not 1,424 bytes */
    WINDROW_CLOCK = 4,    /* the stamp is no date from 2000 to 2099 or no time: windrow_stamp.h */
    WINDROW_FILE = 5,     /* the file is not 1-10 */
    WINDROW_LOCKED = 6,   /* define while not unlocked */
    WINDROW_GROUP = 7,    /* a bad group: not (0, 0), and not at least one point, all in one row of the live table; carried is the
                             first one's place, 1-16, or 0 where there are not 32 numbers */
    WINDROW_LONG = 8,     /* the groups make a record of more than 250 bytes */
    WINDROW_TRIGGER = 9,  /* the trigger is neither 0 nor a Boolean */
    WINDROW_RUNNING = 10, /* unlock while running */
    WINDROW_ROOM = 11,    /* a pending start whose layout exceeds the archive */
    WINDROW_ALARM = 12,   /* the slot is not 1-32, or an entry of it is bad */
    WINDROW_REPLY = 13,   /* the reply buffer is under 256 bytes */
    WINDROW_GARBLED = 14, /* no 03 reply of unit 1-247 with a right CRC and a record of this size (as byte count, the frame 5
                             bytes longer); or a record not all zeros whose stamp is no date or no time: windrow_stamp.h */
    WINDROW_EMPTY = 15,   /* the record is all zeros: nothing has been captured there */
    WINDROW_BEYOND = 16   /* the place or the point asked for names nothing */
};

/* The service card's word for a number; "Done" for 0, and "Unknown" for a number that is not on the card. */
static inline const char *windrow_card_word(uint32_t number)
{
    static const char *const words[] = {"Done", "Memory", "Foreign", "Table", "Clock", "File", "Locked", "Group", "Long",
                                        "Trigger", "Running", "Room", "Alarm", "Reply", "Garbled", "Empty", "Beyond"};
    return number < sizeof words / sizeof words[0] ? words[number] : "Unknown";
}

/* Exceptions: the third byte of a reply of 5 bytes, whose function has its highest bit set. A gateway answers these three. */
enum windrow_exception {
    WINDROW_ILLEGAL_FUNCTION = 1, /* another function than 01, 03 and 06; of a gateway before 2.0, 01 too */
    WINDROW_ILLEGAL_ADDRESS = 2,  /* no such address, 01 on what is no flag, 03 on a flag; registers past the last, live points
                                     past their row */
    WINDROW_ILLEGAL_VALUE = 3     /* a frame that is not of 8 bytes; a record's number not 1 to n; 0 or over 33 registers; 0 live
                                     points, or over 250 bytes of them */
};

/* The Modbus standard's word for an exception; "unknown exception" for a code that a gateway never answers. */
static inline const char *windrow_exception_word(uint32_t code)
{
    switch (code) {
    case WINDROW_ILLEGAL_FUNCTION:
        return "illegal function";
    case WINDROW_ILLEGAL_ADDRESS:
        return "illegal data address";
    case WINDROW_ILLEGAL_VALUE:
        return "illegal data value";
    default:
        return "unknown exception";
    }
}

#endif
