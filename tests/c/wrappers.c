/*
 * The inline functions of the headers, which stand on the proved ones. Every call of the gateway is made both ways, by pointer
 * and by value, each on a state and an archive of its own: number, state, archive and what else is answered must be the same,
 * done and refused. A state is stored and taken back, also as one of format 1. Requests are published ones; alarm records are
 * written by hand. The expected lines were written by hand too, and CRCs worked out by the bit rule in Python.
 */
#include <assert.h>
#include <stdio.h>
#include <string.h>

#include "windrow_gateway.h"
#include "windrow_reader.h"

#define ARCHIVE 11024 /* the alarm file's 11,000 bytes and two records of 12 bytes */
#define LENT 0xA5     /* what a reply buffer holds as it is lent */

static const uint16_t watched[WINDROW_GROUP_NUMBERS] = {3001, 1, 5101, 1};            /* 6 + 2 + 4 = 12 bytes */
static const uint16_t past_the_row[WINDROW_GROUP_NUMBERS] = {3001, 1, 0, 0, 7228, 2}; /* place 3 ends at 7229 */
static const uint16_t over_long[WINDROW_GROUP_NUMBERS] = {7101, 61, 3001, 1};         /* 252 bytes */
static const struct windrow_stamp august = {8, 29, 7, 11, 36, 52}, no_month = {0, 29, 7, 11, 36, 52};

/* What the calls by pointer work on, the same for those by value, and the first of the two before the latest call. */
static struct {
    struct windrow_state state;
    uint8_t archive[ARCHIVE];
} ours, theirs, before;

static uint8_t table[WINDROW_TABLE_BYTES];

/* Prints what a call answered. Both ways have left the same; a refusal has changed nothing, but for fresh's zeros. */
static void told(const char *call, uint32_t number, uint32_t wanted_number, bool is_fresh)
{
    printf("%s: %u %s\n", call, number, windrow_card_word(number));
    assert(number == wanted_number);
    assert(memcmp(&ours, &theirs, sizeof ours) == 0);
    if (number != WINDROW_DONE) {
        assert(is_fresh || memcmp(&ours.state, &before.state, sizeof ours.state) == 0);
        assert(memcmp(ours.archive, before.archive, sizeof ours.archive) == 0);
    }
    before = ours;
}

/* A call both ways. */
static void both(const char *call, uint32_t number, struct windrow_gateway_answer by_value)
{
    theirs.state = by_value.state;
    told(call, number, by_value.number, false);
}

static void fresh(const char *call, uint32_t unit, uint32_t firmware, size_t length)
{
    static const struct windrow_state zeros;
    uint32_t number = windrow_fresh(&ours.state, true, unit, firmware, ours.archive, length);
    struct windrow_gateway_answer by_value = windrow_gateway_fresh(true, unit, firmware, theirs.archive, length);
    theirs.state = by_value.state;
    told(call, number, by_value.number, true);
    if (number != WINDROW_DONE)
        assert(memcmp(&ours.state, &zeros, sizeof zeros) == 0);
    else
        assert(ours.state.site.unit == unit && ours.state.site.firmware == firmware && ours.state.site.archive_length == length);
}

/* A define both ways, and once more where the bad place is not wanted. */
static void define(const char *call, uint32_t file, const uint16_t groups[WINDROW_GROUP_NUMBERS], uint16_t limit)
{
    uint32_t bad_place = 99;
    struct windrow_state again = ours.state;
    uint32_t number = windrow_define(&ours.state, ours.archive, ARCHIVE, file, groups, limit, &bad_place);
    struct windrow_gateway_answer by_value = windrow_gateway_define(theirs.state, theirs.archive, ARCHIVE, file, groups, limit);
    both(call, number, by_value);
    assert(bad_place == by_value.carried);
    printf("bad place %u\n", bad_place);
    assert(windrow_define(&again, ours.archive, ARCHIVE, file, groups, limit, NULL) == number);
    assert(memcmp(&again, &ours.state, sizeof again) == 0);
}

static void set_up(void)
{
    memset(&ours, 0xEE, sizeof ours);
    theirs = before = ours;
    fresh("fresh with unit 248", 248, 74, ARCHIVE);
    fresh("fresh with 10,999 bytes", 17, 74, 10999);
    fresh("fresh of firmware 75 with no bytes", 17, 75, 0);
    fresh("fresh of firmware 65,609, which is 73 in 16 bits", 17, 65609, ARCHIVE);
    fresh("fresh of firmware 73 with 3,299 bytes", 17, 73, 3299);
    fresh("fresh of firmware 73 with 3,300 bytes", 17, 73, 3300);
    fresh("fresh", 17, 74, ARCHIVE);
    define("define while locked", 1, watched, 2);
    both("unlock with a byte less", windrow_unlock(&ours.state, ours.archive, ARCHIVE - 1),
         windrow_gateway_unlock(theirs.state, theirs.archive, ARCHIVE - 1));
    both("unlock", windrow_unlock(&ours.state, ours.archive, ARCHIVE),
         windrow_gateway_unlock(theirs.state, theirs.archive, ARCHIVE));
    define("define file 11", 11, watched, 2);
    define("define past the row", 1, past_the_row, 2);
    define("define 252 bytes", 1, over_long, 2);
    define("define three records", 1, watched, 3);
}

static void start_and_stop(void)
{
    both("start without room", windrow_start(&ours.state, ours.archive, ARCHIVE),
         windrow_gateway_start(theirs.state, theirs.archive, ARCHIVE));
    define("define two records", 1, watched, 2);
    both("lock with a byte more", windrow_lock(&ours.state, ours.archive, ARCHIVE + 1),
         windrow_gateway_lock(theirs.state, theirs.archive, ARCHIVE + 1));
    both("lock", windrow_lock(&ours.state, ours.archive, ARCHIVE), windrow_gateway_lock(theirs.state, theirs.archive, ARCHIVE));
    memset(ours.archive, 0xEE, ARCHIVE); /* so that the zeros of the start are seen */
    memset(theirs.archive, 0xEE, ARCHIVE);
    both("start", windrow_start(&ours.state, ours.archive, ARCHIVE),
         windrow_gateway_start(theirs.state, theirs.archive, ARCHIVE));
    both("unlock while running", windrow_unlock(&ours.state, ours.archive, ARCHIVE),
         windrow_gateway_unlock(theirs.state, theirs.archive, ARCHIVE));
    both("stop with a byte less", windrow_stop(&ours.state, ours.archive, ARCHIVE - 1),
         windrow_gateway_stop(theirs.state, theirs.archive, ARCHIVE - 1));
    both("stop", windrow_stop(&ours.state, ours.archive, ARCHIVE), windrow_gateway_stop(theirs.state, theirs.archive, ARCHIVE));
    both("start again", windrow_start(&ours.state, ours.archive, ARCHIVE),
         windrow_gateway_start(theirs.state, theirs.archive, ARCHIVE));
}

static void settings(void)
{
    both("trigger past the Booleans", windrow_trigger(&ours.state, ours.archive, ARCHIVE, 1, 1929),
         windrow_gateway_trigger(theirs.state, theirs.archive, ARCHIVE, 1, 1929));
    both("trigger", windrow_trigger(&ours.state, ours.archive, ARCHIVE, 1, 1803),
         windrow_gateway_trigger(theirs.state, theirs.archive, ARCHIVE, 1, 1803));
    both("alarm of type 4", windrow_alarm(&ours.state, ours.archive, ARCHIVE, 32, 1811, 4, 7101),
         windrow_gateway_alarm(theirs.state, theirs.archive, ARCHIVE, 32, 1811, 4, 7101));
    both("alarm", windrow_alarm(&ours.state, ours.archive, ARCHIVE, 32, 1811, 2, 7101),
         windrow_gateway_alarm(theirs.state, theirs.archive, ARCHIVE, 32, 1811, 2, 7101));
    const struct windrow_slot *slot = &ours.state.settings.slots[31];
    printf("trigger of file 1: %u; slot 32: point %u type %u transducer %u\n", ours.state.settings.triggers[0], slot->point,
           slot->type, slot->transducer);
}

static void scan(const char *call, size_t table_length, struct windrow_stamp stamp)
{
    both(call, windrow_scan(&ours.state, ours.archive, ARCHIVE, table, table_length, stamp),
         windrow_gateway_scan(theirs.state, theirs.archive, ARCHIVE, table, table_length, stamp));
    printf("pointers %u and %u\n", ours.state.files.pointers[0], ours.state.files.pointers[10]);
}

static void scans(void)
{
    scan("scan of a byte less", sizeof table - 1, august);
    scan("scan with no month", sizeof table, no_month);
    scan("first scan", sizeof table, august);
    assert(windrow_put_flag(table, 1803, true) && windrow_put_flag(table, 1811, true));
    assert(windrow_put_int16(table, 3001, -5) && windrow_put_int32(table, WINDROW_TURNER_PASSES, 7));
    scan("scan with both on", sizeof table, august);
}

static void show(const uint8_t *bytes, size_t length)
{
    for (size_t i = 0; i < length; i++)
        printf(" %02X", bytes[i]);
    printf("\n");
}

/* A poll both ways, with a table and into buffers of these lengths; the whole of both buffers is compared. */
static void poll(const char *call, const uint8_t frame[8], size_t table_length, size_t reply_length)
{
    uint8_t reply[WINDROW_LEAST_REPLY + 44], their_reply[sizeof reply];
    uint32_t to_send = 99;
    memset(reply, LENT, sizeof reply);
    memset(their_reply, LENT, sizeof their_reply);
    uint32_t number =
        windrow_poll(&ours.state, ours.archive, ARCHIVE, table, table_length, frame, 8, reply, reply_length, &to_send);
    struct windrow_poll_answer by_value =
        windrow_gateway_poll(theirs.state, theirs.archive, ARCHIVE, table, table_length, frame, 8, their_reply, reply_length);
    theirs.state = by_value.state;
    told(call, number, by_value.number, false);
    assert(to_send == by_value.length && memcmp(reply, their_reply, sizeof reply) == 0);
    printf("requested %u, to send:", ours.state.line.requested[0]);
    show(reply, to_send);
}

static void polls(void)
{
    static const uint8_t record_1[] = {0x11, 0x03, 0x02, 0xD1, 0x00, 0x01, 0xD7, 0x1B},
                         request_1[] = {0x11, 0x06, 0x0E, 0x77, 0x00, 0x01, 0xF8, 0x68},
                         request_3[] = {0x11, 0x06, 0x0E, 0x77, 0x00, 0x03, 0x79, 0xA9},
                         another_unit[] = {0x12, 0x03, 0x02, 0xD1, 0x00, 0x01, 0xD7, 0x28},
                         nine_flags[] = {0x11, 0x01, 0x07, 0x0B, 0x00, 0x09, 0x8E, 0x2A},
                         degrees[] = {0x11, 0x03, 0x0B, 0xB9, 0x00, 0x01, 0x55, 0x5B};
    poll("request record 1 into a byte less", request_1, sizeof table, WINDROW_LEAST_REPLY - 1);
    poll("request record 1 with a table of a byte less", request_1, sizeof table - 1, WINDROW_LEAST_REPLY - 1);
    poll("record 1", record_1, sizeof table, WINDROW_LEAST_REPLY);
    poll("request record 1", request_1, sizeof table, WINDROW_LEAST_REPLY + 44);
    poll("request record 3 of 2", request_3, sizeof table, WINDROW_LEAST_REPLY);
    poll("another unit's", another_unit, sizeof table, WINDROW_LEAST_REPLY);
    poll("9 flags from 1803 on", nine_flags, sizeof table, WINDROW_LEAST_REPLY);
    poll("3001", degrees, sizeof table, WINDROW_LEAST_REPLY);
}

/* Where the five bools stand, worked out by hand as in gateway.c: day first, running, unlocked, pending, scanned. */
static bool is_bool(size_t place)
{
    return place == 5 || (8 <= place && place <= 11);
}

/* The state that these bytes are; of the first format its firmware is 74, whatever stands there. */
static struct windrow_state stored_as(const uint8_t bytes[WINDROW_STATE_BYTES], bool first_format)
{
    uint8_t wanted[WINDROW_STATE_BYTES];
    struct windrow_state state;
    memcpy(wanted, bytes, sizeof wanted);
    if (first_format) {
        wanted[6] = 74;
        wanted[7] = 0;
    }
    memcpy(&state, wanted, sizeof state);
    return state;
}

/* Takes bytes back and answers whether they are taken; where not, the state is left alone. */
static bool take(const uint8_t bytes[WINDROW_STATE_BYTES], bool first_format)
{
    struct windrow_state back = before.state, wanted = stored_as(bytes, first_format);
    bool taken = windrow_state_from_bytes(&back, bytes, first_format ? 1 : 2);
    assert(memcmp(&back, taken ? &wanted : &before.state, sizeof back) == 0);
    return taken;
}

/* Every byte of a stored state in turn is 0, 1, 2 and 255: only a bool that is neither 0 nor 1 is refused, and nothing is taken. */
static void stored(bool first_format)
{
    static const uint8_t tried[] = {0, 1, 2, 255};
    uint8_t bytes[WINDROW_STATE_BYTES];
    memcpy(bytes, &ours.state, sizeof bytes);
    unsigned refused = 0;
    for (size_t place = 0; place < sizeof bytes; place++)
        for (int i = 0; i < 4; i++) {
            uint8_t kept = bytes[place];
            bytes[place] = tried[i];
            bool taken = take(bytes, first_format);
            assert(taken == !(is_bool(place) && i >= 2));
            refused += !taken;
            bytes[place] = kept;
        }
    printf("stored states refused: %u\n", refused);
}

/* The state goes on from its bytes, the second time from those that release 2 stored: there no firmware stands. */
static void taken_back(void)
{
    uint8_t bytes[WINDROW_STATE_BYTES];
    memcpy(bytes, &ours.state, sizeof bytes);
    memset(&ours.state, 0, sizeof ours.state);
    assert(windrow_state_from_bytes(&ours.state, bytes, 2));
    both("lock the state taken back", windrow_lock(&ours.state, ours.archive, ARCHIVE),
         windrow_gateway_lock(theirs.state, theirs.archive, ARCHIVE));
    for (uint32_t format = 0; format < 258; format++) /* 1 and 2 are the formats; 257 is not 1 */
        assert(windrow_state_from_bytes(&ours.state, bytes, format) == (format == 1 || format == 2));
    bytes[6] = bytes[7] = 0;
    assert(windrow_state_from_bytes(&ours.state, bytes, 2));
    printf("lock it without a firmware: %u\n", windrow_lock(&ours.state, ours.archive, ARCHIVE));
    assert(windrow_state_from_bytes(&ours.state, (const uint8_t *)&ours.state, 1)); /* in place */
    both("lock it as of format 1", windrow_lock(&ours.state, ours.archive, ARCHIVE),
         windrow_gateway_lock(theirs.state, theirs.archive, ARCHIVE));
}

/* Simply Modbus' examples of FC01 to FC06, with the numbers that their text gives. The last byte is past the request. */
static void requests(void)
{
    static const struct {
        uint8_t function;
        uint16_t address, number;
    } published[] = {{1, 19, 37}, {2, 196, 22}, {3, 107, 3}, {4, 8, 1}, {5, 172, 0xFF00}, {6, 1, 3}};
    for (size_t i = 0; i < sizeof published / sizeof published[0]; i++) {
        uint8_t request[WINDROW_REQUEST_BYTES + 1];
        memset(request, LENT, sizeof request);
        windrow_request(request, 17, published[i].function, published[i].address, published[i].number);
        assert(request[WINDROW_REQUEST_BYTES] == LENT);
        printf("request:");
        show(request, WINDROW_REQUEST_BYTES);
    }
}

static void read_alarm(const char *what, bool day_first, const uint8_t *frame, size_t length)
{
    struct windrow_alarm_answer a = windrow_read_alarm(day_first, frame, length);
    printf("%s: %s, %u/%u/%02u %02u:%02u:%02u, point %u type %u bit %u, %g, %d passes, %d litres\n", what,
           windrow_card_word(a.number), a.stamp.day, a.stamp.month, a.stamp.year, a.stamp.hour, a.stamp.minute, a.stamp.second,
           a.point, a.type, a.bit, (double)a.transducer, (int)a.passes, (int)a.litres);
}

static void alarms(void)
{
    /* 29 August 2007 11:36:52, point 1850, type 3, bit 1, -42.0, 7 passes, -5 litres */
    static const uint8_t month_first[] = {0x11, 0x03, 0x16, 0x08, 0x1D, 0x07, 0x0B, 0x24, 0x34, 0x07, 0x3A, 0x03, 0x01, 0xC2,
                                          0x28, 0x00, 0x00, 0x00, 0x00, 0x00, 0x07, 0xFF, 0xFF, 0xFF, 0xFB, 0x8B, 0x69};
    static const uint8_t day_first[] = {0x11, 0x03, 0x16, 0x1D, 0x08, 0x07, 0x0B, 0x24, 0x34, 0x07, 0x3A, 0x03, 0x01, 0xC2,
                                        0x28, 0x00, 0x00, 0x00, 0x00, 0x00, 0x07, 0xFF, 0xFF, 0xFF, 0xFB, 0x48, 0x9F};
    static const uint8_t empty[27] = {[0] = 0x11, [1] = 0x03, [2] = 0x16, [25] = 0xF4, [26] = 0xF6};
    static const uint8_t exception[] = {0x11, 0x83, 0x03, 0x00, 0xF4};
    uint8_t damaged[sizeof month_first];
    memcpy(damaged, month_first, sizeof damaged);
    damaged[20] ^= 1;
    read_alarm("month first", false, month_first, sizeof month_first);
    read_alarm("day first", true, day_first, sizeof day_first);
    read_alarm("the wrong date order", false, day_first, sizeof day_first);
    read_alarm("none yet", false, empty, sizeof empty);
    read_alarm("a damaged one", false, damaged, sizeof damaged);
    read_alarm("a byte less", false, month_first, sizeof month_first - 1);
    read_alarm("an exception", false, exception, sizeof exception);
    read_alarm("nothing", false, exception, 0);
}

/* Registers by the published reply of Simply Modbus, function 03; what is no such reply gives none. */
static void replies(void)
{
    static const uint8_t three[] = {0x11, 0x03, 0x06, 0xAE, 0x41, 0x56, 0x52, 0x43, 0x40, 0x49, 0xAD};
    static const uint8_t exception[] = {0x11, 0x83, 0x03, 0x00, 0xF4};
    static const uint8_t no_data[] = {0x11, 0x03, 0x00, 0x21, 0x35};
    uint8_t damaged[sizeof three];
    uint16_t registers[4] = {1, 2, 3, 4};
    memcpy(damaged, three, sizeof damaged);
    damaged[4] ^= 0x80;
    assert(!windrow_reply_registers(three, sizeof three, registers, 2));
    assert(!windrow_reply_registers(three, sizeof three, registers, 4));
    assert(!windrow_reply_registers(damaged, sizeof damaged, registers, 3));
    assert(!windrow_reply_registers(three, sizeof three - 1, registers, 3));
    assert(!windrow_reply_registers(exception, sizeof exception, registers, 0));
    assert(!windrow_reply_registers(three, 0, registers, 3));
    assert(!windrow_reply_registers(no_data, sizeof no_data, registers, 0));
    assert(!windrow_reply_registers(no_data, sizeof no_data, registers, (size_t)1 << (8 * sizeof(size_t) - 1)));
    printf("registers as they were: %u %u %u %u\n", registers[0], registers[1], registers[2], registers[3]);
    assert(windrow_reply_registers(three, sizeof three, registers, 3));
    printf("registers: %04X %04X %04X %u\n", registers[0], registers[1], registers[2], registers[3]);
    printf("exceptions: %u %u %u %u\n", (unsigned)windrow_reply_exception(exception, 5),
           (unsigned)windrow_reply_exception(exception, 4), (unsigned)windrow_reply_exception(three, sizeof three),
           (unsigned)windrow_reply_exception(exception, 0));
    memcpy(damaged, exception, sizeof exception);
    damaged[2] = 2;
    printf("exception with a wrong CRC: %u\n", (unsigned)windrow_reply_exception(damaged, sizeof exception));
}

/* How each row is polled: by which function, the most points at once, their bytes. */
static void rows(void)
{
    static const uint32_t firsts[] = {1801, 3001, 4001, 5101, 7101, 14001}, counts[] = {0, 1, 8, 9, 2000, 2001};
    for (size_t i = 0; i < sizeof firsts / sizeof firsts[0]; i++) {
        struct windrow_row row = windrow_row_of(firsts[i]);
        uint32_t most = windrow_most_points(row);
        printf("polls from %u on: function %u, %u points at most, %zu bytes\n", (unsigned)firsts[i], windrow_function_for(row),
               (unsigned)most, windrow_points_bytes(row, most));
    }
    printf("points of no row: %u; bytes of flags:", (unsigned)windrow_most_points(windrow_row_of(3000)));
    for (size_t i = 0; i < sizeof counts / sizeof counts[0]; i++)
        printf(" %zu", windrow_points_bytes(windrow_row_of(1801), counts[i]));
    printf("\n");
}

/* The published reply of Simply Modbus, function 01, with 37 flags, and that of function 03, with 6 bytes. */
static const uint8_t flags_reply[] = {0x11, 0x01, 0x05, 0xCD, 0x6B, 0xB2, 0x0E, 0x1B, 0x45, 0xE6};
static const uint8_t words_reply[] = {0x11, 0x03, 0x06, 0xAE, 0x41, 0x56, 0x52, 0x43, 0x40, 0x49, 0xAD};

/* The flags of the published reply, put into a table of this byte: their neighbours stay. */
static void take_flags(uint32_t first, uint32_t count, uint8_t fill)
{
    uint8_t taken[WINDROW_TABLE_BYTES];
    memset(taken, fill, sizeof taken);
    assert(windrow_reply_points(flags_reply, sizeof flags_reply, taken, first, count));
    for (uint32_t point = WINDROW_FIRST_FLAG; point <= WINDROW_LAST_FLAG; point++) {
        bool on = false;
        assert(windrow_get_flag(taken, point, &on));
        if (first <= point && point < first + count)
            printf("%d", on);
        else
            assert(on == (fill != 0));
    }
    for (size_t i = 16; i < sizeof taken; i++)
        assert(taken[i] == fill);
    printf(" from %u on, over %02X\n", (unsigned)first, fill);
}

/* Points whose bytes a reply has as they stand in the table: there they are, and nothing else has changed. */
static void take_bytes(uint32_t first, uint32_t count, size_t at, const uint8_t *frame, size_t length)
{
    static const uint8_t zeros[WINDROW_TABLE_BYTES];
    uint8_t taken[WINDROW_TABLE_BYTES] = {0};
    size_t bytes = length - 5;
    assert(windrow_reply_points(frame, length, taken, first, count));
    assert(memcmp(taken + at, frame + 3, bytes) == 0 && memcmp(taken, zeros, at) == 0);
    assert(memcmp(taken + at + bytes, zeros, sizeof taken - at - bytes) == 0);
    printf("%u from %u on:", (unsigned)count, (unsigned)first);
    show(taken + at, bytes);
}

/* A reply that is not to a poll of these points: nothing is taken. */
static void refuse_points(uint32_t first, uint32_t count, const uint8_t *frame, size_t length)
{
    static const uint8_t zeros[WINDROW_TABLE_BYTES];
    uint8_t taken[WINDROW_TABLE_BYTES] = {0};
    assert(!windrow_reply_points(frame, length, taken, first, count) && memcmp(taken, zeros, sizeof zeros) == 0);
}

static void refused_points(void)
{
    static const uint8_t exception[] = {0x11, 0x81, 0x02, 0xC0, 0x54}, no_data[] = {0x11, 0x01, 0x00, 0x20, 0x55};
    static const uint8_t byte_more[] = {0x11, 0x01, 0x01, 0x05, 0x00, 0x8B, 0x6F};
    static const uint8_t byte_less[] = {0x11, 0x01, 0x02, 0x05, 0x95, 0xBB};
    static const uint8_t over_250[257] = {[0] = 0x11, [1] = 0x03, [2] = 0xFC, [255] = 0x9E, [256] = 0x49};
    uint8_t damaged[sizeof flags_reply];
    memcpy(damaged, flags_reply, sizeof damaged);
    damaged[4] ^= 0x80;
    refuse_points(1801, 32, flags_reply, sizeof flags_reply);      /* 4 bytes */
    refuse_points(1801, 41, flags_reply, sizeof flags_reply);      /* 6 bytes */
    refuse_points(1893, 37, flags_reply, sizeof flags_reply);      /* past 1928 */
    refuse_points(1800, 37, flags_reply, sizeof flags_reply);      /* no row */
    refuse_points(67337, 37, flags_reply, sizeof flags_reply);     /* 1801 in 16 bits */
    refuse_points(1801, 37, damaged, sizeof damaged);              /* a wrong CRC */
    refuse_points(1801, 37, flags_reply, sizeof flags_reply - 1);  /* a byte less */
    refuse_points(1801, 37, flags_reply, 0);                       /* nothing */
    refuse_points(1801, 1, exception, sizeof exception);           /* an exception */
    refuse_points(1801, 0, no_data, sizeof no_data);               /* no points */
    refuse_points(1801, UINT32_MAX, flags_reply, sizeof flags_reply);
    refuse_points(1801, 48, words_reply, sizeof words_reply);      /* by another function */
    refuse_points(3001, 3, flags_reply, sizeof flags_reply);
    refuse_points(3063, 3, words_reply, sizeof words_reply);       /* past 3064 */
    refuse_points(5101, 1, words_reply, sizeof words_reply);       /* 4 bytes, and there are 6 */
    refuse_points(3001, 0x80000003, words_reply, sizeof words_reply);
    refuse_points(1801, 8, byte_more, sizeof byte_more);           /* a byte count that is not the frame's */
    refuse_points(1801, 16, byte_less, sizeof byte_less);
    refuse_points(7101, 63, over_250, sizeof over_250);            /* more than a poll reads */
}

/* Replies to polls of live points. Those with a text were written by hand, the second as a gateway before 2.2 may send it. */
static void live_points(void)
{
    static const uint8_t text_reply[] = {0x11, 0x03, 0x08, 0x4E, 0x4F, 0x52, 0x54, 0x48, 0x00, 0x00, 0x00, 0xD1, 0xB1};
    static const uint8_t old_text_reply[] = {0x11, 0x03, 0x08, 0x4E, 0x81, 0x1F, 0x7F, 0x00, 0xFF, 0x7E, 0x20, 0xD2, 0x4E};
    take_flags(1801, 37, 0x00);
    take_flags(1801, 37, 0xFF);
    take_flags(1892, 37, 0xFF);
    take_flags(1889, 40, 0xFF);
    take_flags(1804, 33, 0x00);
    take_bytes(3001, 3, 16, words_reply, sizeof words_reply);
    take_bytes(3062, 3, 138, words_reply, sizeof words_reply);
    take_bytes(4032, 1, 392, text_reply, sizeof text_reply);
    take_bytes(4001, 1, 144, old_text_reply, sizeof old_text_reply);
    take_bytes(5163, 2, 648, text_reply, sizeof text_reply);
    take_bytes(7227, 2, 1160, text_reply, sizeof text_reply);
    refused_points();
}

/* The values of points: a NaN's bits, and numbers of both signs. */
static void values(void)
{
    struct windrow_point point = {0, 0, WINDROW_FLOAT, 0x7FC00001, 0, 0};
    float not_a_number = windrow_point_float(point);
    assert(memcmp(&not_a_number, &point.bits, sizeof not_a_number) == 0);
    point.bits = 0xC2280000;
    printf("C2280000: %g\n", (double)windrow_point_float(point));
    point.bits = 0xFFFFFFFB;
    printf("FFFFFFFB: %d\n", (int)windrow_point_int(point));
    point.bits = 0x7FFFFFFF;
    printf("7FFFFFFF: %d\n", (int)windrow_point_int(point));
}

int main(void)
{
    set_up();
    start_and_stop();
    settings();
    scans();
    polls();
    stored(false);
    stored(true);
    taken_back();
    requests();
    alarms();
    replies();
    rows();
    live_points();
    values();
    return 0;
}
