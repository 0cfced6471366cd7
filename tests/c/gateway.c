/*
 * A gateway's firmware in C: makes a gateway, defines a file, starts it, sets a trigger and an alarm slot, scans, polls, hands
 * the replies to the reading end, and is refused what the service card refuses; asserts the header's layout. Offsets and sizes
 * are worked out by hand from C's rules for x86-64, and the expected lines are written by hand from the gateway's; CRCs, those of
 * the requests below too, were worked out by the bit rule in Python. Both headers and both libraries serve one program.
 */
#include <assert.h>
#include <stdio.h>
#include <string.h>

#include "stamp_layout.h"
#include "windrow_gateway.h"
#include "windrow_reader.h"

#define ROOMY 11006 /* the alarm file's 11,000 bytes and one bare stamp */
#define TIGHT 11005
#define ROOMY_73 3306 /* of firmware 73, whose alarm file has 3,300 bytes */
#define TIGHT_73 3305

#define RECORDS 11049 /* the alarm file, and before it two records of 14 bytes, or one of 49 with texts */
#define RECORD 14
#define TEXT_RECORD 49
#define ALARM 22

#define LENT 0xA5 /* what a reply buffer holds as it is lent */

static uint8_t archive[ROOMY + 1];
static uint8_t records[RECORDS];
static uint8_t live[1424];
static uint8_t reply[WINDROW_LEAST_REPLY + 44];

static const uint16_t bare_stamp[32] = {0};
static const uint16_t fine[32] = {7101, 61};                  /* 6 + 61 x 4 = 250 bytes */
static const uint16_t over_long[32] = {7101, 61, 3001, 1};    /* 252 bytes */
static const uint16_t past_the_row[32] = {0, 0, 7228, 1, 7228, 2}; /* place 3 ends at 7229 */
static const uint16_t watched[32] = {1803, 9, 3001, 1, 5101, 1}; /* 6 + 2 + 2 + 4 = 14 bytes */
static const uint16_t with_texts[32] = {4031, 2, 3001, 1, 1803, 8, 14016, 1, 5101, 1, 7101, 1}; /* 6 + 16 + 2 + 1 + 16 + 4 + 4 */

/* A struct of this size, and no byte of it outside its fields. */
#define WHOLE(name, size, fields) assert(sizeof(struct name) == (size) && (fields) == (size))
#define FIELD(name, field) sizeof(((struct name *)0)->field)
#define AT(name, field, offset) assert(offsetof(struct name, field) == (offset))

static void check_parts(void)
{
    WHOLE(windrow_site, 8, FIELD(windrow_site, archive_length) + FIELD(windrow_site, unit) + FIELD(windrow_site, day_first)
          + FIELD(windrow_site, firmware));
    AT(windrow_site, archive_length, 0);
    AT(windrow_site, unit, 4);
    AT(windrow_site, day_first, 5);
    AT(windrow_site, firmware, 6);

    WHOLE(windrow_flags, 3, FIELD(windrow_flags, running) + FIELD(windrow_flags, unlocked) + FIELD(windrow_flags, pending));
    AT(windrow_flags, running, 0);
    AT(windrow_flags, unlocked, 1);
    AT(windrow_flags, pending, 2);

    WHOLE(windrow_seen, 17, FIELD(windrow_seen, scanned) + FIELD(windrow_seen, booleans));
    AT(windrow_seen, scanned, 0);
    AT(windrow_seen, booleans, 1);

    WHOLE(windrow_definitions, 660, FIELD(windrow_definitions, groups) + FIELD(windrow_definitions, limits));
    AT(windrow_definitions, groups, 0);
    AT(windrow_definitions, limits, 640);

    WHOLE(windrow_slot, 6, FIELD(windrow_slot, point) + FIELD(windrow_slot, transducer) + FIELD(windrow_slot, type));
    AT(windrow_slot, point, 0);
    AT(windrow_slot, transducer, 2);
    AT(windrow_slot, type, 4);
}

static void check_layout(void)
{
    check_parts();
    check_stamp_layout();

    WHOLE(windrow_settings, 872, FIELD(windrow_settings, draft) + FIELD(windrow_settings, triggers)
          + FIELD(windrow_settings, slots));
    AT(windrow_settings, draft, 0);
    AT(windrow_settings, triggers, 660);
    AT(windrow_settings, slots, 680);

    WHOLE(windrow_files, 682, FIELD(windrow_files, layout) + FIELD(windrow_files, pointers));
    AT(windrow_files, layout, 0);
    AT(windrow_files, pointers, 660);

    WHOLE(windrow_line, 22, FIELD(windrow_line, requested));

    WHOLE(windrow_state, 1604, FIELD(windrow_state, site) + FIELD(windrow_state, flags) + FIELD(windrow_state, seen)
          + FIELD(windrow_state, settings) + FIELD(windrow_state, files) + FIELD(windrow_state, line));
    AT(windrow_state, site, 0);
    AT(windrow_state, flags, 8);
    AT(windrow_state, seen, 11);
    AT(windrow_state, files, 28);
    AT(windrow_state, line, 710);
    AT(windrow_state, settings, 732);

    WHOLE(windrow_gateway_answer, 1612, FIELD(windrow_gateway_answer, number) + FIELD(windrow_gateway_answer, carried)
          + FIELD(windrow_gateway_answer, state));
    AT(windrow_gateway_answer, number, 0);
    AT(windrow_gateway_answer, carried, 4);
    AT(windrow_gateway_answer, state, 8);

    WHOLE(windrow_poll_answer, 1612, FIELD(windrow_poll_answer, number) + FIELD(windrow_poll_answer, length)
          + FIELD(windrow_poll_answer, state));
    AT(windrow_poll_answer, number, 0);
    AT(windrow_poll_answer, length, 4);
    AT(windrow_poll_answer, state, 8);
}

/* Prints what a call answered and hands on its state. */
static struct windrow_state told(const char *call, struct windrow_gateway_answer a)
{
    printf("%s: %u", call, a.number);
    if (a.number == WINDROW_GROUP)
        printf(" carrying %u", a.carried);
    else
        assert(a.carried == 0);
    printf(", running %d unlocked %d pending %d\n", a.state.flags.running, a.state.flags.unlocked,
           a.state.flags.pending);
    return a.state;
}

/* How many bytes are not 0. */
static unsigned filled_of(const uint8_t *bytes, size_t length)
{
    unsigned n = 0;
    for (size_t i = 0; i < length; i++)
        n += bytes[i] != 0;
    return n;
}

static unsigned filled(void)
{
    return filled_of(archive, sizeof archive);
}

static void show_site(struct windrow_state s)
{
    printf("archive %u, unit %u, day first %d, firmware %u, filled bytes %u\n", s.site.archive_length, s.site.unit,
           s.site.day_first, s.site.firmware, filled());
}

static struct windrow_state one_bare_stamp(void)
{
    memset(archive, 0xEE, sizeof archive);
    struct windrow_state s = told("fresh", windrow_gateway_fresh(true, 17, 74, archive, ROOMY));
    show_site(s);
    s = told("define while locked", windrow_gateway_define(s, archive, ROOMY, 1, bare_stamp, 1));
    s = told("unlock", windrow_gateway_unlock(s, archive, ROOMY));
    s = told("define file 0", windrow_gateway_define(s, archive, ROOMY, 0, past_the_row, 1));
    s = told("define file 11", windrow_gateway_define(s, archive, ROOMY, 11, bare_stamp, 1));
    s = told("define past the row", windrow_gateway_define(s, archive, ROOMY, 1, past_the_row, 1));
    s = told("define 252 bytes", windrow_gateway_define(s, archive, ROOMY, 1, over_long, 1));
    s = told("define 250 bytes", windrow_gateway_define(s, archive, ROOMY, 10, fine, 1));
    printf("draft of file 10: %u of (%u,%u)\n", s.settings.draft.limits[9], s.settings.draft.groups[288],
           s.settings.draft.groups[289]);
    s = told("start without room", windrow_gateway_start(s, archive, ROOMY));
    s = told("define file 10 idle", windrow_gateway_define(s, archive, ROOMY, 10, fine, 0));
    s = told("define a bare stamp", windrow_gateway_define(s, archive, ROOMY, 1, bare_stamp, 1));
    memset(archive, 0xEE, ROOMY);
    s = told("start with a byte less", windrow_gateway_start(s, archive, ROOMY - 1));
    printf("filled bytes %u, laid out %u\n", filled(), s.files.layout.limits[0]);
    s = told("start", windrow_gateway_start(s, archive, ROOMY));
    printf("filled bytes %u, laid out %u and %u of (%u,%u)\n", filled(), s.files.layout.limits[0],
           s.files.layout.limits[9], s.files.layout.groups[288], s.files.layout.groups[289]);
    return told("unlock while running", windrow_gateway_unlock(s, archive, ROOMY));
}

static struct windrow_state trigger_and_slot(struct windrow_state s)
{
    s = told("trigger", windrow_gateway_trigger(s, archive, ROOMY, 1, 1928));
    s = told("trigger past the Booleans", windrow_gateway_trigger(s, archive, ROOMY, 1, 1929));
    s = told("trigger 67,337, which is 1801 in 16 bits", windrow_gateway_trigger(s, archive, ROOMY, 1, 67337));
    s = told("trigger of file 11", windrow_gateway_trigger(s, archive, ROOMY, 11, 1929));
    printf("trigger of file 1: %u\n", s.settings.triggers[0]);
    s = told("alarm", windrow_gateway_alarm(s, archive, ROOMY, 32, 1801, 3, 7228));
    s = told("alarm of type 4", windrow_gateway_alarm(s, archive, ROOMY, 32, 0, 4, 0));
    s = told("alarm slot 33", windrow_gateway_alarm(s, archive, ROOMY, 33, 1801, 0, 0));
    s = told("alarm of type 256", windrow_gateway_alarm(s, archive, ROOMY, 1, 1801, 256, 0));
    s = told("alarm on 67,337", windrow_gateway_alarm(s, archive, ROOMY, 1, 67337, 0, 0));
    s = told("alarm with a transducer of 72,637", windrow_gateway_alarm(s, archive, ROOMY, 1, 1801, 0, 72637));
    s = told("alarm on a float", windrow_gateway_alarm(s, archive, ROOMY, 1, 7101, 0, 0));
    printf("slot 32: point %u type %u transducer %u\n", s.settings.slots[31].point, s.settings.slots[31].type,
           s.settings.slots[31].transducer);
    return s;
}

static void stopped_and_damaged(struct windrow_state s)
{
    memset(archive, 0xEE, ROOMY);
    const struct windrow_state before = s;
    s = told("stop", windrow_gateway_stop(s, archive, ROOMY));
    s = told("start again", windrow_gateway_start(s, archive, ROOMY));
    printf("filled bytes %u, the state as before %d\n", filled(), memcmp(&s, &before, sizeof s) == 0);
    s = told("stop", windrow_gateway_stop(s, archive, ROOMY));
    s = told("unlock", windrow_gateway_unlock(s, archive, ROOMY));
    s = told("lock", windrow_gateway_lock(s, archive, ROOMY));

    s.flags.running = true;
    s.flags.unlocked = true;
    told("stop a damaged state", windrow_gateway_stop(s, archive, ROOMY));
    told("and with a byte less", windrow_gateway_stop(s, archive, ROOMY - 1));
}

static void no_room(void)
{
    struct windrow_state s = told("fresh", windrow_gateway_fresh(false, 17, 74, archive, TIGHT));
    s = told("unlock", windrow_gateway_unlock(s, archive, TIGHT));
    s = told("define a bare stamp", windrow_gateway_define(s, archive, TIGHT, 1, bare_stamp, 1));
    told("start", windrow_gateway_start(s, archive, TIGHT));
}

static void refused_fresh(void)
{
    static const struct windrow_state zeros;
    memset(archive, 0xEE, sizeof archive);
    struct windrow_state s = told("fresh with 10,999 bytes and unit 0", windrow_gateway_fresh(true, 0, 74, archive, 10999));
    s = told("fresh with unit 248", windrow_gateway_fresh(true, 248, 74, archive, ROOMY));
    s = told("fresh with unit 257", windrow_gateway_fresh(true, 257, 74, archive, ROOMY));
    printf("filled bytes %u, zeros %d\n", filled(), memcmp(&s, &zeros, sizeof s) == 0);
    told("unlock the zeros", windrow_gateway_unlock(s, archive, 0));
    told("unlock the zeros over memory", windrow_gateway_unlock(s, archive, ROOMY));
}

/* What the probes have read: 1801 and 1809 on, 3001 is -5, litres 100,000, 7101 is 55.5. */
static void fill_live(void)
{
    static const uint8_t minus_five[] = {0xFF, 0xFB};
    static const uint8_t litres[] = {0x00, 0x01, 0x86, 0xA0};
    static const uint8_t degrees[] = {0x42, 0x5E, 0x00, 0x00};
    live[0] = 0x01;
    live[1] = 0x01;
    memcpy(live + 16, minus_five, sizeof minus_five);
    memcpy(live + 404, litres, sizeof litres);
    memcpy(live + 656, degrees, sizeof degrees);
}

/* Points 1803 and 1811, and the turner passes of point 5101. */
static void now(bool on_1803, bool on_1811, uint8_t passes)
{
    live[0] = on_1803 ? 0x05 : 0x01;
    live[1] = on_1811 ? 0x05 : 0x01;
    live[403] = passes;
}

/* A scan on 29 August 2007, 36 minutes after the hour. */
static struct windrow_state scan(const char *when, struct windrow_state s, uint8_t hour, uint8_t second)
{
    struct windrow_stamp stamp = {8, 29, 7, hour, 36, second};
    s = told(when, windrow_gateway_scan(s, records, sizeof records, live, sizeof live, stamp));
    printf("pointers %u and %u\n", s.files.pointers[0], s.files.pointers[10]);
    return s;
}

static void show_bytes(const uint8_t *bytes, size_t length)
{
    for (size_t i = 0; i < length; i++)
        printf(" %02X", bytes[i]);
    printf("\n");
}

static void show(const char *what, size_t place, size_t length)
{
    printf("%s:", what);
    show_bytes(records + place, length);
}

/* A gateway whose file 1 keeps two records, one a rise of 1803; its alarm slots are on 1811, rises only, and 1803, any change. */
static struct windrow_state watching(void)
{
    struct windrow_state s = windrow_gateway_fresh(false, 17, 74, records, sizeof records).state;
    s = windrow_gateway_trigger(s, records, sizeof records, 1, 1803).state;
    s = windrow_gateway_alarm(s, records, sizeof records, 1, 1811, 1, 0).state;
    s = windrow_gateway_alarm(s, records, sizeof records, 2, 1803, 0, 7101).state;
    s = windrow_gateway_unlock(s, records, sizeof records).state;
    s = windrow_gateway_define(s, records, sizeof records, 1, watched, 2).state;
    return told("start watching", windrow_gateway_start(s, records, sizeof records));
}

static struct windrow_state first_rise(struct windrow_state s)
{
    now(true, true, 7);
    s = scan("first scan with the trigger on", s, 11, 50);
    now(false, false, 7);
    s = scan("both off", s, 11, 51);
    now(true, true, 7);
    s = scan("both on", s, 11, 52);
    show("record 1", 0, RECORD);
    show("record 2", RECORD, RECORD);
    show("alarm 1", 2 * RECORD, ALARM);
    show("alarm 2", 2 * RECORD + ALARM, ALARM);
    show("alarm 3", 2 * RECORD + 2 * ALARM, ALARM);
    return s;
}

static void refused_scans(struct windrow_state s)
{
    static const struct windrow_stamp noon = {8, 29, 7, 12, 0, 0};
    static const struct windrow_stamp no_month = {0, 29, 7, 12, 0, 0};
    static const struct windrow_stamp february_30 = {2, 30, 24, 12, 0, 0};
    now(false, false, 7);
    told("scan with no month", windrow_gateway_scan(s, records, sizeof records, live, sizeof live, no_month));
    told("scan on 30 February", windrow_gateway_scan(s, records, sizeof records, live, sizeof live, february_30));
    told("scan of a byte less", windrow_gateway_scan(s, records, sizeof records, live, sizeof live - 1, no_month));
    told("scan over a byte less", windrow_gateway_scan(s, records, sizeof records - 1, live, sizeof live - 1, no_month));
    s.settings.triggers[9] = 1929;
    told("scan of a damaged state", windrow_gateway_scan(s, records, sizeof records, live, sizeof live, noon));
}

/* 1803 is off at the last scan before the stop: a gateway that forgets what it scans while stopped sees a rise after the start. */
static struct windrow_state raised_while_stopped(struct windrow_state s)
{
    now(false, true, 8);
    s = scan("off before the stop", s, 11, 53);
    s = told("stop watching", windrow_gateway_stop(s, records, sizeof records));
    now(true, true, 8);
    s = scan("on while stopped", s, 11, 54);
    s = told("start watching again", windrow_gateway_start(s, records, sizeof records));
    return scan("still on", s, 11, 55);
}

static struct windrow_state round_again(struct windrow_state s)
{
    now(false, true, 8);
    s = scan("off", s, 11, 57);
    now(true, true, 8);
    s = scan("on", s, 11, 58);
    now(false, true, 9);
    s = scan("off, an hour back", s, 10, 58);
    now(true, true, 9);
    s = scan("on", s, 10, 59);
    show("record 1", 0, RECORD);
    show("record 2", RECORD, RECORD);
    size_t end = 2 * RECORD + 8 * ALARM;
    show("alarm 8", end - ALARM, ALARM);
    printf("filled bytes past alarm 8: %u\n", filled_of(records + end, sizeof records - end));
    return s;
}

static struct windrow_state scans(void)
{
    fill_live();
    struct windrow_state s = first_rise(watching());
    refused_scans(s);
    return round_again(raised_while_stopped(s));
}

/* A frame's bytes and their number, as two arguments. */
#define FRAME(...) (const uint8_t[]){__VA_ARGS__}, sizeof((const uint8_t[]){__VA_ARGS__})

/* A poll that is done. No byte of the buffer past the reply changes. */
static struct windrow_poll_answer polled(struct windrow_state s, const uint8_t *frame, size_t length)
{
    memset(reply, LENT, sizeof reply);
    struct windrow_poll_answer a =
        windrow_gateway_poll(s, records, sizeof records, live, sizeof live, frame, length, reply, sizeof reply);
    assert(a.number == WINDROW_DONE && a.length <= sizeof reply);
    for (size_t i = a.length; i < sizeof reply; i++)
        assert(reply[i] == LENT);
    return a;
}

/* Prints the reply to a frame and the requested number of a file, and hands on the state. */
static struct windrow_state poll_of(int file, const char *what, struct windrow_state s, const uint8_t *frame, size_t length)
{
    struct windrow_poll_answer a = polled(s, frame, length);
    printf("%s, requested %u:", what, a.state.line.requested[file - 1]);
    show_bytes(reply, a.length);
    return a.state;
}

static struct windrow_state poll(const char *what, struct windrow_state s, const uint8_t *frame, size_t length)
{
    return poll_of(1, what, s, frame, length);
}

static struct windrow_state poll_alarm(const char *what, struct windrow_state s, const uint8_t *frame, size_t length)
{
    return poll_of(WINDROW_ALARM_FILE, what, s, frame, length);
}

static void print_stamp(const uint16_t groups[32], size_t length)
{
    struct windrow_stamp_answer when = windrow_reader_stamp(groups, 32, false, reply, length);
    assert(when.number == WINDROW_DONE);
    printf("read back: %u/%u/%02u %02u:%02u:%02u", when.stamp.day, when.stamp.month, when.stamp.year, when.stamp.hour,
           when.stamp.minute, when.stamp.second);
}

static uint32_t bits_of(uint32_t g, uint32_t e)
{
    struct windrow_point point = windrow_reader_point(watched, 32, false, reply, RECORD + 5, g, e);
    assert(point.number == WINDROW_DONE);
    return point.bits;
}

/* The reply through the reading end: the stamp, points 1803-1811, 3001 and 5101. */
static void read_back(void)
{
    print_stamp(watched, RECORD + 5);
    printf(", flags ");
    for (uint32_t e = 1; e <= 9; e++)
        printf("%u", bits_of(1, e));
    printf(", value %d, passes %d\n", (int)(int32_t)bits_of(2, 1), (int)(int32_t)bits_of(3, 1));
}

static struct windrow_state polls(struct windrow_state s)
{
    s = poll("registers of file 1", s, FRAME(0x11, 0x03, 0x0E, 0x75, 0x00, 0x03, 0x14, 0x69));
    s = poll("registers of the alarm file", s, FRAME(0x11, 0x03, 0x0E, 0x93, 0x00, 0x03, 0xF5, 0x9E));
    s = poll("record 2 by number", s, FRAME(0x11, 0x03, 0x02, 0xD1, 0x00, 0x02, 0x97, 0x1A));
    read_back();
    s = poll("stamp 2 by number", s, FRAME(0x11, 0x03, 0x03, 0x03, 0x00, 0x02, 0x36, 0xDF));
    print_stamp(bare_stamp, 6 + 5);
    printf("\n");
    s = poll("record requested before any is", s, FRAME(0x11, 0x03, 0x02, 0xBD, 0x00, 0x00, 0xD6, 0xC6));
    s = poll("request record 1", s, FRAME(0x11, 0x06, 0x0E, 0x77, 0x00, 0x01, 0xF8, 0x68));
    s = poll("record requested", s, FRAME(0x11, 0x03, 0x02, 0xBD, 0x00, 0x00, 0xD6, 0xC6));
    read_back();
    s = poll("stamp requested", s, FRAME(0x11, 0x03, 0x02, 0xEF, 0x00, 0x00, 0x77, 0x17));
    print_stamp(bare_stamp, 6 + 5);
    printf("\n");
    return poll("alarm 8 by number", s, FRAME(0x11, 0x03, 0x02, 0xDB, 0x00, 0x08, 0x37, 0x1F));
}

static struct windrow_state exceptions(struct windrow_state s)
{
    s = poll("function 04", s, FRAME(0x11, 0x04, 0x02, 0xD1, 0x00, 0x02, 0x22, 0xDA));
    assert(reply[2] == WINDROW_ILLEGAL_FUNCTION);
    s = poll("nine bytes on address 712", s, FRAME(0x11, 0x03, 0x02, 0xC8, 0x00, 0x01, 0x00, 0x5C, 0x02));
    assert(reply[2] == WINDROW_ILLEGAL_VALUE);
    s = poll("address 712", s, FRAME(0x11, 0x03, 0x02, 0xC8, 0x00, 0x01, 0x06, 0xDC));
    assert(reply[2] == WINDROW_ILLEGAL_ADDRESS);
    s = poll("record 3 of 2", s, FRAME(0x11, 0x03, 0x02, 0xD1, 0x00, 0x03, 0x56, 0xDA));
    s = poll("34 registers", s, FRAME(0x11, 0x03, 0x0E, 0x75, 0x00, 0x22, 0xD4, 0x71));
    s = poll("2 registers from the last on", s, FRAME(0x11, 0x03, 0x0E, 0x95, 0x00, 0x02, 0xD4, 0x5F));
    s = poll("request record 3 of 2", s, FRAME(0x11, 0x06, 0x0E, 0x77, 0x00, 0x03, 0x79, 0xA9));
    return poll("write a pointer", s, FRAME(0x11, 0x06, 0x0E, 0x76, 0x00, 0x01, 0xA9, 0xA8));
}

/* What no scan has seen: 1928 on, 3064 is 258, 5164 is -2, 7228 a NaN, and the first and last text of each row. */
static void fill_rows(void)
{
    static const uint8_t number[] = {0x01, 0x02}, minus_two[] = {0xFF, 0xFF, 0xFF, 0xFE};
    static const uint8_t not_a_number[] = {0x7F, 0xC0, 0x00, 0x01};
    live[15] = 0x80;
    memcpy(live + 142, number, sizeof number);
    memcpy(live + 144, "NORTH", 5);
    memcpy(live + 392, "12345678", 8);
    memcpy(live + 652, minus_two, sizeof minus_two);
    memcpy(live + 1164, not_a_number, sizeof not_a_number);
    memcpy(live + 1168, "too hot", 7);
    memcpy(live + 1408, "0123456789abcdef", 16);
}

/* A poll of a long run of points, which changes nothing of the state: its data is so many bytes of the table, from byte `at` on. */
static void poll_run(const char *what, struct windrow_state s, size_t at, uint32_t bytes, const uint8_t *frame, size_t length)
{
    struct windrow_poll_answer a = polled(s, frame, length);
    assert(a.length == bytes + 5 && memcmp(reply + 3, live + at, bytes) == 0 && memcmp(&a.state, &s, sizeof s) == 0);
    printf("%s: %02X %02X %02X, %u bytes from %zu on, %02X %02X\n", what, reply[0], reply[1], reply[2], bytes, at,
           reply[a.length - 2], reply[a.length - 1]);
}

static struct windrow_state live_points(struct windrow_state s)
{
    fill_rows();
    s = poll("every flag", s, FRAME(0x11, 0x01, 0x07, 0x09, 0x00, 0x80, 0xEE, 0x4C));
    s = poll("9 flags from 1803 on", s, FRAME(0x11, 0x01, 0x07, 0x0B, 0x00, 0x09, 0x8E, 0x2A));
    s = poll("the last flag", s, FRAME(0x11, 0x01, 0x07, 0x88, 0x00, 0x01, 0x7E, 0x04));
    poll_run("every 16-bit point", s, 16, 128, FRAME(0x11, 0x03, 0x0B, 0xB9, 0x00, 0x40, 0x95, 0x6B));
    s = poll("the last two", s, FRAME(0x11, 0x03, 0x0B, 0xF7, 0x00, 0x02, 0x75, 0x4D));
    s = poll("the first text of 8", s, FRAME(0x11, 0x03, 0x0F, 0xA1, 0x00, 0x01, 0xD4, 0x6C));
    poll_run("and the 31 behind it", s, 152, 248, FRAME(0x11, 0x03, 0x0F, 0xA2, 0x00, 0x1F, 0xA4, 0x64));
    s = poll("the first two 32-bit points", s, FRAME(0x11, 0x03, 0x13, 0xED, 0x00, 0x02, 0x52, 0x2A));
    poll_run("and the 62 behind them", s, 408, 248, FRAME(0x11, 0x03, 0x13, 0xEF, 0x00, 0x3E, 0xF3, 0xFB));
    s = poll("the first float", s, FRAME(0x11, 0x03, 0x1B, 0xBD, 0x00, 0x01, 0x10, 0x5A));
    poll_run("the last 62", s, 920, 248, FRAME(0x11, 0x03, 0x1B, 0xFF, 0x00, 0x3E, 0xF0, 0x5E));
    s = poll("the first text of 16", s, FRAME(0x11, 0x03, 0x36, 0xB1, 0x00, 0x01, 0xD9, 0x35));
    poll_run("and the 15 behind it", s, 1184, 240, FRAME(0x11, 0x03, 0x36, 0xB2, 0x00, 0x0F, 0xA8, 0xF1));
    return s;
}

static struct windrow_state no_live_points(struct windrow_state s)
{
    s = poll("function 02", s, FRAME(0x11, 0x02, 0x07, 0x09, 0x00, 0x01, 0x6A, 0x2C));
    s = poll("nine bytes of 01 on address 0", s, FRAME(0x11, 0x01, 0x00, 0x00, 0x00, 0x01, 0x00, 0x1A, 0x40));
    s = poll("03 on a flag", s, FRAME(0x11, 0x03, 0x07, 0x09, 0x00, 0x01, 0x57, 0xEC));
    s = poll("01 on 3001", s, FRAME(0x11, 0x01, 0x0B, 0xB9, 0x00, 0x01, 0x2C, 0x9B));
    s = poll("01 on 701", s, FRAME(0x11, 0x01, 0x02, 0xBD, 0x00, 0x01, 0x6E, 0xC6));
    s = poll("01 on 1929", s, FRAME(0x11, 0x01, 0x07, 0x89, 0x00, 0x01, 0x2F, 0xC4));
    s = poll("03 on 3065", s, FRAME(0x11, 0x03, 0x0B, 0xF9, 0x00, 0x01, 0x54, 0x8F));
    s = poll("06 on 3001", s, FRAME(0x11, 0x06, 0x0B, 0xB9, 0x00, 0x01, 0x99, 0x5B));
    s = poll("0 flags", s, FRAME(0x11, 0x01, 0x07, 0x09, 0x00, 0x00, 0xEF, 0xEC));
    s = poll("129 flags", s, FRAME(0x11, 0x01, 0x07, 0x09, 0x00, 0x81, 0x2F, 0x8C));
    s = poll("2,000 flags", s, FRAME(0x11, 0x01, 0x07, 0x09, 0x07, 0xD0, 0xEC, 0x40));
    s = poll("2,001 flags", s, FRAME(0x11, 0x01, 0x07, 0x09, 0x07, 0xD1, 0x2D, 0x80));
    s = poll("65 16-bit points", s, FRAME(0x11, 0x03, 0x0B, 0xB9, 0x00, 0x41, 0x54, 0xAB));
    s = poll("126 16-bit points", s, FRAME(0x11, 0x03, 0x0B, 0xB9, 0x00, 0x7E, 0x14, 0xBB));
    s = poll("2 from 3064 on", s, FRAME(0x11, 0x03, 0x0B, 0xF8, 0x00, 0x02, 0x45, 0x4E));
    s = poll("0 from 3064 on", s, FRAME(0x11, 0x03, 0x0B, 0xF8, 0x00, 0x00, 0xC4, 0x8F));
    s = poll("every text of 8", s, FRAME(0x11, 0x03, 0x0F, 0xA1, 0x00, 0x20, 0x14, 0x74));
    s = poll("32 texts from 4002 on", s, FRAME(0x11, 0x03, 0x0F, 0xA2, 0x00, 0x20, 0xE4, 0x74));
    s = poll("63 floats", s, FRAME(0x11, 0x03, 0x1B, 0xBD, 0x00, 0x3F, 0x91, 0x8A));
    return poll("every text of 16", s, FRAME(0x11, 0x03, 0x36, 0xB1, 0x00, 0x10, 0x19, 0x39));
}

static struct windrow_state unanswered(struct windrow_state s)
{
    s = poll("unit 0 requests record 2", s, FRAME(0x00, 0x06, 0x0E, 0x77, 0x00, 0x02, 0xBB, 0x28));
    s = poll("unit 0 reads a flag", s, FRAME(0x00, 0x01, 0x07, 0x09, 0x00, 0x01, 0x2D, 0x6D));
    s = poll("unit 0 reads 3001", s, FRAME(0x00, 0x03, 0x0B, 0xB9, 0x00, 0x01, 0x56, 0x1A));
    s = poll("unit 18 requests record 1", s, FRAME(0x12, 0x06, 0x0E, 0x77, 0x00, 0x01, 0xF8, 0x5B));
    s = poll("unit 18 reads a flag", s, FRAME(0x12, 0x01, 0x07, 0x09, 0x00, 0x01, 0x2E, 0x1F));
    s = poll("a wrong CRC", s, FRAME(0x11, 0x06, 0x0E, 0x77, 0x00, 0x01, 0xF8, 0x69));
    return poll("no bytes", s, live, 0);
}

/* The lengths of what a poll is lent. */
struct lent {
    size_t archive, table, reply;
};

/* A poll that is refused leaves the state, the requested number too, and the reply buffer alone. */
static void refuse_poll(const char *what, struct windrow_state s, struct lent lent, const uint8_t *frame, size_t length)
{
    static uint8_t longer[sizeof live + 1];
    memset(reply, LENT, sizeof reply);
    struct windrow_poll_answer a =
        windrow_gateway_poll(s, records, lent.archive, longer, lent.table, frame, length, reply, lent.reply);
    for (size_t i = 0; i < sizeof reply; i++)
        assert(reply[i] == LENT);
    printf("%s: %u, length %u, the state as before %d\n", what, a.number, a.length, memcmp(&a.state, &s, sizeof s) == 0);
}

/* Table is told whatever the frame is: requests, records and live points, and what would not be answered. */
static void refused_tables(struct windrow_state s)
{
    static const struct lent less = {sizeof records, sizeof live - 1, WINDROW_LEAST_REPLY};
    static const struct lent more = {sizeof records, sizeof live + 1, WINDROW_LEAST_REPLY};
    static const struct lent none = {sizeof records, 0, WINDROW_LEAST_REPLY};
    refuse_poll("request with a table of a byte less", s, less, FRAME(0x11, 0x06, 0x0E, 0x77, 0x00, 0x01, 0xF8, 0x68));
    refuse_poll("record with a byte more", s, more, FRAME(0x11, 0x03, 0x02, 0xD1, 0x00, 0x02, 0x97, 0x1A));
    refuse_poll("flags with no table", s, none, FRAME(0x11, 0x01, 0x07, 0x09, 0x00, 0x80, 0xEE, 0x4C));
    refuse_poll("an exception with a byte less", s, less, FRAME(0x11, 0x02, 0x07, 0x09, 0x00, 0x01, 0x6A, 0x2C));
    refuse_poll("a wrong CRC with a byte less", s, less, FRAME(0x11, 0x06, 0x0E, 0x77, 0x00, 0x01, 0xF8, 0x69));
    refuse_poll("unit 18 with a byte more", s, more, FRAME(0x12, 0x01, 0x07, 0x09, 0x00, 0x01, 0x2E, 0x1F));
    refuse_poll("unit 0 requests with a byte less", s, less, FRAME(0x00, 0x06, 0x0E, 0x77, 0x00, 0x01, 0xFB, 0x29));
    refuse_poll("no bytes and no table", s, none, live, 0);
}

static void refused_polls(struct windrow_state s)
{
    static const uint8_t request_1[] = {0x11, 0x06, 0x0E, 0x77, 0x00, 0x01, 0xF8, 0x68};
    struct lent lent = {sizeof records, sizeof live, WINDROW_LEAST_REPLY - 1};
    refuse_poll("poll into a byte less", s, lent, request_1, sizeof request_1);
    refused_tables(s);
    lent.table--;
    refuse_poll("poll into a byte less, with a table of a byte less", s, lent, request_1, sizeof request_1);
    lent.archive--;
    refuse_poll("poll over a byte less too", s, lent, request_1, sizeof request_1);
    lent.archive++;
    s.line.requested[0] = 3;
    refuse_poll("poll of a damaged state", s, lent, request_1, sizeof request_1);
}

/* The table that is lent is read, whatever was scanned. */
static void poll_unscanned(void)
{
    struct windrow_state s = told("fresh", windrow_gateway_fresh(false, 17, 74, records, sizeof records));
    poll("3001 before any scan", s, FRAME(0x11, 0x03, 0x0B, 0xB9, 0x00, 0x01, 0x55, 0x5B));
}

/* A gateway without files, so that its alarm file starts at byte 0. Its slots are in the order neither of points nor of types. */
static struct windrow_state with_slots(void)
{
    static const struct {
        uint32_t slot, point, type, transducer;
    } slots[] = {{1, 1928, 2, 7101}, {2, 1803, 1, 0}, {3, 1811, 0, 0}, {4, 1928, 3, 0}, {5, 1803, 2, 7101}, {32, 1928, 0, 0}};
    struct windrow_state s = windrow_gateway_fresh(false, 17, 74, records, sizeof records).state;
    for (size_t i = 0; i < sizeof slots / sizeof slots[0]; i++)
        s = windrow_gateway_alarm(s, records, sizeof records, slots[i].slot, slots[i].point, slots[i].type, slots[i].transducer)
                .state;
    return told("start with slots", windrow_gateway_start(s, records, sizeof records));
}

static void show_alarms(unsigned first, unsigned last)
{
    for (unsigned k = first; k <= last; k++) {
        printf("alarm %u:", k);
        show_bytes(records + (k - 1) * ALARM, ALARM);
    }
}

/* What falls is logged before what rises, each by point and then slot; here the first such scan goes round. */
static void cleared_before_raised(void)
{
    struct windrow_state s = with_slots();
    now(false, true, 7);
    live[15] = 0x80;
    s = scan("1811 and 1928 on", s, 11, 50);
    s.files.pointers[10] = 497;
    now(true, false, 7);
    live[15] = 0;
    s = scan("both off, 1803 on", s, 11, 51);
    now(false, true, 8);
    live[15] = 0x80;
    s = scan("both on, 1803 off", s, 11, 52);
    show_alarms(498, 500);
    show_alarms(1, 7);
    printf("filled bytes past alarm 7: %u\n", filled_of(records + 7 * ALARM, 490 * ALARM));
    printf("filled bytes past alarm 500: %u\n", filled_of(records + 500 * ALARM, sizeof records - 500 * ALARM));
}

/* The last two texts of 8 and the last of 16, as an old handheld has typed them. */
static const uint8_t typed_8[] = {0x80, 0x1F, 0x20, 0x7E, 0x7F, 0x4E, 0xFF, 0x00, 0x00, 0x81, 0x4E, 0x00, 0x0A, 0x3F, 0x5C, 0x99};
static const uint8_t typed_16[] = {0x99, 0x81, 0x6C, 0x6C, 0x65, 0x72, 0x00, 0x00, 0x1F, 0x20, 0x7E, 0x7F, 0x80, 0xFF, 0x00, 0x09};

/* What is no text has such bytes too: 3001, 5101 and 5102, 7101, and 1803-1810, which are packed as 9F. */
static void fill_texts(void)
{
    static const uint8_t of_16_bits[] = {0x1F, 0x80}, of_32_bits[] = {0xFF, 0x7F, 0x80, 0x01, 0x81, 0x1F, 0x7F, 0x80};
    static const uint8_t pattern[] = {0x80, 0x7F, 0x1F, 0xFF};
    memset(live, 0, sizeof live);
    live[0] = 0x7C;
    live[1] = 0x02;
    memcpy(live + 16, of_16_bits, sizeof of_16_bits);
    memcpy(live + 384, typed_8, sizeof typed_8);
    memcpy(live + 400, of_32_bits, sizeof of_32_bits);
    memcpy(live + 656, pattern, sizeof pattern);
    memcpy(live + 1408, typed_16, sizeof typed_16);
}

/* A rise of 1801 captures a record with texts, and logs an alarm. */
static struct windrow_state capture_texts(void)
{
    struct windrow_state s = windrow_gateway_fresh(false, 17, 74, records, sizeof records).state;
    s = windrow_gateway_trigger(s, records, sizeof records, 1, 1801).state;
    s = windrow_gateway_alarm(s, records, sizeof records, 1, 1801, 0, 7101).state;
    s = windrow_gateway_unlock(s, records, sizeof records).state;
    s = windrow_gateway_define(s, records, sizeof records, 1, with_texts, 1).state;
    s = told("start with texts", windrow_gateway_start(s, records, sizeof records));
    s = scan("1801 off", s, 11, 51);
    live[0] |= 0x01;
    s = scan("1801 on", s, 11, 52);
    show("record 1", 0, TEXT_RECORD);
    show("alarm 1", TEXT_RECORD, ALARM);
    return s;
}

static void read_text(uint32_t g, uint32_t e)
{
    struct windrow_point text = windrow_reader_point(with_texts, 32, false, reply, TEXT_RECORD + 5, g, e);
    assert(text.number == WINDROW_DONE && text.kind == WINDROW_TEXT);
    printf("read back: %u bytes from %u on:", text.length, text.place);
    show_bytes(reply + text.place, text.length);
}

/* Record 1, and its texts through the reading end. */
static struct windrow_state poll_texts(const char *what, struct windrow_state s)
{
    s = poll(what, s, FRAME(0x11, 0x03, 0x02, 0xD1, 0x00, 0x01, 0xD7, 0x1B));
    read_text(1, 1);
    read_text(1, 2);
    read_text(4, 1);
    return s;
}

static struct windrow_state poll_live_texts(struct windrow_state s)
{
    s = poll("live texts of 8", s, FRAME(0x11, 0x03, 0x0F, 0xBF, 0x00, 0x02, 0xF4, 0x6B));
    s = poll("live texts of 16", s, FRAME(0x11, 0x03, 0x36, 0xBF, 0x00, 0x02, 0xF8, 0xF7));
    s = poll("a live 16-bit point", s, FRAME(0x11, 0x03, 0x0B, 0xB9, 0x00, 0x01, 0x55, 0x5B));
    s = poll("live 32-bit points", s, FRAME(0x11, 0x03, 0x13, 0xED, 0x00, 0x02, 0x52, 0x2A));
    s = poll("a live float", s, FRAME(0x11, 0x03, 0x1B, 0xBD, 0x00, 0x01, 0x10, 0x5A));
    return poll("live flags", s, FRAME(0x11, 0x01, 0x07, 0x0B, 0x00, 0x08, 0x4F, 0xEA));
}

/*
 * What is captured and what is polled live is clean, and the table keeps its bytes. A record that lies in the archive as a gateway
 * before 2.2 has filed it is polled and read as it is.
 */
static void clean_text(void)
{
    static uint8_t before[sizeof live];
    fill_texts();
    memcpy(before, live, sizeof before);
    before[0] |= 0x01;
    struct windrow_state s = poll_live_texts(poll_texts("record 1 by number", capture_texts()));
    printf("the table as before %d\n", memcmp(live, before, sizeof before) == 0);
    memcpy(records + 6, typed_8, sizeof typed_8);
    memcpy(records + 25, typed_16, sizeof typed_16);
    poll_texts("record 1 as filed before 2.2", s);
}

/* Firmware 73 with room for one bare stamp, or with a byte less. */
static struct windrow_state one_bare_stamp_of_73(size_t length)
{
    memset(archive, 0xEE, sizeof archive);
    struct windrow_state s = told("fresh of 73", windrow_gateway_fresh(false, 17, 73, archive, length));
    show_site(s);
    s = told("unlock", windrow_gateway_unlock(s, archive, length));
    s = told("define a bare stamp", windrow_gateway_define(s, archive, length, 1, bare_stamp, 1));
    return told("start", windrow_gateway_start(s, archive, length));
}

/* Firmware before memory before unit, each alone and with those behind it. In 8 or 16 bits some of the firmwares would be good. */
static void order_of_fresh(void)
{
    static const struct windrow_state zeros;
    static uint8_t large[1048577];
    static const struct {
        uint32_t firmware, unit;
        size_t length;
    } tried[] = {
        {72, 0, 0}, {72, 17, 3306}, {75, 17, 11006}, {0, 17, 11006}, {329, 17, 3306}, {330, 17, 11006}, {65609, 17, 3306},
        {65610, 17, 11006}, {75, 0, 1048577}, {UINT32_MAX, 17, 11006},
        {73, 0, 0}, {73, 17, 3299}, {73, 0, 3299}, {74, 17, 3300}, {74, 17, 10999}, {73, 17, 1048577}, {74, 0, 1048577},
        {73, 0, 3300}, {73, 248, 1048576}, {74, 257, 11000},
        {73, 1, 3300}, {73, 247, 1048576}, {74, 247, 11000},
    };
    for (size_t i = 0; i < sizeof tried / sizeof tried[0]; i++) {
        memset(large, 0xEE, sizeof large);
        struct windrow_gateway_answer a = windrow_gateway_fresh(true, tried[i].unit, tried[i].firmware, large, tried[i].length);
        assert(a.carried == 0 && (a.number == WINDROW_DONE || memcmp(&a.state, &zeros, sizeof zeros) == 0));
        printf("fresh of %u over %zu bytes with unit %u: %u, firmware %u, filled bytes %u\n", tried[i].firmware, tried[i].length,
               tried[i].unit, a.number, a.state.site.firmware, filled_of(large, sizeof large));
    }
}

/* What every call but fresh answers to a state, over so much of the archive. */
static void every_call(const char *what, struct windrow_state s, size_t length)
{
    static const struct windrow_stamp noon = {8, 29, 7, 12, 0, 0};
    printf("%s: unlock %u, lock %u, stop %u, start %u, define %u, trigger %u, alarm %u, scan %u, poll %u\n", what,
           windrow_gateway_unlock(s, archive, length).number, windrow_gateway_lock(s, archive, length).number,
           windrow_gateway_stop(s, archive, length).number, windrow_gateway_start(s, archive, length).number,
           windrow_gateway_define(s, archive, length, 1, bare_stamp, 1).number,
           windrow_gateway_trigger(s, archive, length, 1, 1801).number,
           windrow_gateway_alarm(s, archive, length, 1, 1801, 0, 0).number,
           windrow_gateway_scan(s, archive, length, live, sizeof live, noon).number,
           windrow_gateway_poll(s, archive, length, live, sizeof live, live, 0, reply, sizeof reply).number);
}

/* A stopped gateway of 73 with one bare stamp laid out, in which the firmware or a number of the alarm file is another. */
static void states_of_73(struct windrow_state s)
{
    static const uint16_t firmwares[] = {73, 0, 72, 75, 329, 65535, 74};
    char what[32];
    s = windrow_gateway_stop(s, archive, ROOMY_73).state;
    for (size_t i = 0; i < sizeof firmwares / sizeof firmwares[0]; i++) {
        struct windrow_state other = s;
        other.site.firmware = firmwares[i];
        snprintf(what, sizeof what, "firmware %u", firmwares[i]);
        every_call(what, other, ROOMY_73);
        assert(windrow_gateway_lock(other, archive, ROOMY_73 - 1).number == WINDROW_MEMORY);
    }
    for (uint16_t number = 150; number <= 151; number++) {
        struct windrow_state pointed = s, requested = s;
        pointed.files.pointers[10] = number;
        requested.line.requested[10] = number;
        printf("pointer %u: %u, requested number %u: %u\n", number, windrow_gateway_lock(pointed, archive, ROOMY_73).number, number,
               windrow_gateway_lock(requested, archive, ROOMY_73).number);
    }
}

/* A gateway of firmware 73 without files. 31 slots log any change of 1803, each with a transducer of its own. */
static struct windrow_state of_73(void)
{
    struct windrow_state s = windrow_gateway_fresh(false, 17, 73, records, sizeof records).state;
    for (uint8_t slot = 1; slot <= 31; slot++) {
        s = windrow_gateway_alarm(s, records, sizeof records, slot, 1803, 0, 7100u + slot).state;
        live[656 + 4 * (slot - 1)] = 0x42;
        live[656 + 4 * (slot - 1) + 1] = slot;
    }
    return told("start of 73", windrow_gateway_start(s, records, sizeof records));
}

/* Four changes log 124 alarms. The fifth fills the file and goes round behind record 150. */
static struct windrow_state round_150(void)
{
    memset(live, 0, sizeof live);
    fill_live();
    struct windrow_state s = of_73();
    for (uint8_t i = 0; i <= 5; i++) {
        now(i % 2 == 1, false, i);
        s = scan(i % 2 == 1 ? "1803 on" : "1803 off", s, 11, 50 + i);
    }
    show_alarms(149, 150);
    show_alarms(1, 1);
    show_alarms(5, 6);
    printf("filled bytes past alarm 150: %u\n", filled_of(records + 150 * ALARM, sizeof records - 150 * ALARM));
    return s;
}

/* Record 150 is the last one, by number and as requested, whole and by its stamp. */
static void poll_150(struct windrow_state s)
{
    s = poll_alarm("registers of the alarm file", s, FRAME(0x11, 0x03, 0x0E, 0x93, 0x00, 0x03, 0xF5, 0x9E));
    s = poll_alarm("alarm 150 by number", s, FRAME(0x11, 0x03, 0x02, 0xDB, 0x00, 0x96, 0xB6, 0xB7));
    struct windrow_alarm_answer alarm = windrow_read_alarm(false, reply, ALARM + 5);
    printf("read back: %u, point %u type %u bit %u, %g, %d passes, %d litres\n", alarm.number, alarm.point, alarm.type, alarm.bit,
           (double)alarm.transducer, (int)alarm.passes, (int)alarm.litres);
    s = poll_alarm("alarm 151 by number", s, FRAME(0x11, 0x03, 0x02, 0xDB, 0x00, 0x97, 0x77, 0x77));
    s = poll_alarm("alarm 500 by number", s, FRAME(0x11, 0x03, 0x02, 0xDB, 0x01, 0xF4, 0x36, 0xCE));
    s = poll_alarm("alarm 0 by number", s, FRAME(0x11, 0x03, 0x02, 0xDB, 0x00, 0x00, 0x36, 0xD9));
    s = poll_alarm("stamp 150 by number", s, FRAME(0x11, 0x03, 0x03, 0x0D, 0x00, 0x96, 0x56, 0xB3));
    s = poll_alarm("stamp 151 by number", s, FRAME(0x11, 0x03, 0x03, 0x0D, 0x00, 0x97, 0x97, 0x73));
    s = poll_alarm("request alarm 151", s, FRAME(0x11, 0x06, 0x0E, 0x95, 0x00, 0x97, 0xD8, 0x30));
    s = poll_alarm("alarm requested before any is", s, FRAME(0x11, 0x03, 0x02, 0xC7, 0x00, 0x0B, 0xB6, 0xD8));
    s = poll_alarm("request alarm 150", s, FRAME(0x11, 0x06, 0x0E, 0x95, 0x00, 0x96, 0x19, 0xF0));
    s = poll_alarm("alarm requested", s, FRAME(0x11, 0x03, 0x02, 0xC7, 0x00, 0x0B, 0xB6, 0xD8));
    s = poll_alarm("stamp requested", s, FRAME(0x11, 0x03, 0x02, 0xF9, 0x00, 0x03, 0xD6, 0xD2));
    s = poll_alarm("request alarm 500", s, FRAME(0x11, 0x06, 0x0E, 0x95, 0x01, 0xF4, 0x99, 0x89));
    s = poll_alarm("request alarm 0", s, FRAME(0x11, 0x06, 0x0E, 0x95, 0x00, 0x00, 0x99, 0x9E));
    poll_alarm("every register", s, FRAME(0x11, 0x03, 0x0E, 0x75, 0x00, 0x21, 0x94, 0x70));
}

/*
 * A state as releases 1 and 2 stored it: month first, unit 17, running, 1803 off at the latest scan and its slot with transducer
 * 7101, 499 alarms, of which number 500 is requested. Its two reserved bytes, 6 and 7, name no firmware.
 */
static const uint8_t stored_by_2[WINDROW_STATE_BYTES] = {
    [0] = 0x29, [1] = 0x2B, [4] = 17, [8] = 1, [11] = 1, [12] = 0x01, [708] = 0xF3, [709] = 0x01, [730] = 0xF4, [731] = 0x01,
    [1412] = 0x0B, [1413] = 0x07, [1414] = 0xBD, [1415] = 0x1B};

/* Its newest alarm, 499, and its oldest, 500, which was captured last year. */
static const uint8_t alarms_of_2[] = {
    0x08, 0x1C, 0x07, 0x0B, 0x24, 0x34, 0x07, 0x0B, 0x00, 0x00, 0x42, 0x28, 0x00, 0x00, /* 28 August 2007, 42.0 */
    0x00, 0x00, 0x00, 0x03, 0x00, 0x01, 0x86, 0xA0,
    0x0C, 0x1F, 0x06, 0x17, 0x3B, 0x3B, 0x07, 0x0B, 0x00, 0x01, 0x42, 0x29, 0x00, 0x00, /* 31 December 2006, 42.25 */
    0x00, 0x00, 0x00, 0x02, 0x00, 0x01, 0x11, 0x70};

/* Taken back as of format 1 it goes on over the archive as it was, with 500 alarms. Taken for a state of format 2 it is Foreign. */
static void taken_back(void)
{
    struct windrow_state s;
    memset(records, 0, sizeof records);
    memcpy(records + 498 * ALARM, alarms_of_2, sizeof alarms_of_2);
    assert(windrow_state_from_bytes(&s, stored_by_2, 2));
    told("lock what 2 has stored", windrow_gateway_lock(s, records, sizeof records));
    assert(windrow_state_from_bytes(&s, stored_by_2, 1));
    printf("firmware %u\n", s.site.firmware);
    s = told("lock it as of format 1", windrow_gateway_lock(s, records, sizeof records));
    s = poll_alarm("alarm requested", s, FRAME(0x11, 0x03, 0x02, 0xC7, 0x00, 0x0B, 0xB6, 0xD8));
    s = poll_alarm("alarm 151 by number", s, FRAME(0x11, 0x03, 0x02, 0xDB, 0x00, 0x97, 0x77, 0x77));
    s = poll_alarm("alarm 501 by number", s, FRAME(0x11, 0x03, 0x02, 0xDB, 0x01, 0xF5, 0xF7, 0x0E));
    memset(live, 0, sizeof live);
    fill_live();
    now(true, false, 4);
    s = scan("1803 on", s, 11, 51);
    now(false, false, 5);
    s = scan("1803 off", s, 11, 52);
    show_alarms(499, 500);
    show_alarms(1, 2);
    poll_alarm("registers of the alarm file", s, FRAME(0x11, 0x03, 0x0E, 0x93, 0x00, 0x03, 0xF5, 0x9E));
}

int main(void)
{
    check_layout();
    stopped_and_damaged(trigger_and_slot(one_bare_stamp()));
    no_room();
    refused_fresh();
    refused_polls(unanswered(no_live_points(live_points(exceptions(polls(scans()))))));
    poll_unscanned();
    cleared_before_raised();
    clean_text();
    one_bare_stamp_of_73(TIGHT_73);
    states_of_73(one_bare_stamp_of_73(ROOMY_73));
    order_of_fresh();
    poll_150(round_150());
    taken_back();
    return 0;
}
