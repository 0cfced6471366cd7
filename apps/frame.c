/* windrow-frame: why a frame is what it is, for support. */
#include <ctype.h>
#include <stdbool.h>
#include <stdio.h>
#include <stdlib.h>
#include <string.h>

#include "csv.h"
#include "options.h"
#include "polling.h"
#include "report.h"
#include "settings.h"
#include "setup.h"
#include "windrow_gateway.h"
#include "windrow_reader.h"
#include "words.h"

static const char help[] =
    "windrow-frame HEX.. [OPTION..]: says what a Modbus RTU frame is\n"
    "\n"
    "HEX are the frame's bytes in hexadecimal, with spaces, commas, colons or 0x between them or nothing: 11 03 02D1 0001 D71B\n"
    "\n"
    "  --settings FILE   a gateway's settings: says what it answers to a request, as long as nothing is captured or requested\n"
    "  --firmware N      the gateway's firmware, 73 or 74, instead of the settings' line; without settings it says what every\n"
    "                    gateway of that firmware answers, also to polls of its 150 or 500 alarm records by number\n"
    "  --file F          the frame is a reply with a record of file F, 1-11, or with its stamp: takes it apart by the settings\n"
    "  --live POINT      the frame is a reply with live points from POINT on: takes it apart. Of flags, which come eight to a\n"
    "                    byte, the last ones may not have been asked for\n"
    "  --help            this page\n"
    "\n"
    "Texts are shown as they come, but without the zeros at the end, and a backslash and what is no printable ASCII as \\xHH.\n"
    "The status is 0 for a frame that is understood, 1 for one that is damaged or refused.\n"
    "\n";

#define MOST_BYTES 1024

struct frame {
    uint8_t bytes[MOST_BYTES];
    size_t length;
};

static void take_hex(struct frame *frame, const char *word)
{
    for (; *word != 0; word++) {
        if (strchr(" ,:\t\n", *word) != NULL)
            continue;
        if (word[0] == '0' && (word[1] == 'x' || word[1] == 'X')) {
            word++;
            continue;
        }
        char pair[3] = {word[0], word[1], 0};
        if (!isxdigit((unsigned char)pair[0]) || !isxdigit((unsigned char)pair[1]))
            misused("`%.2s` is no byte in hexadecimal, which has two digits", word);
        if (frame->length == MOST_BYTES)
            misused("a frame has 256 bytes at most");
        frame->bytes[frame->length++] = (uint8_t)strtoul(pair, NULL, 16);
        word++;
    }
}

static void tell_unit(uint8_t unit)
{
    if (unit == 0)
        printf("unit 0: to every gateway; none answers\n");
    else
        printf("unit %u%s\n", unit, unit > WINDROW_MOST_UNIT ? ": not 1-247, so no gateway's" : "");
}

static bool tell_crc(const struct frame *frame)
{
    const uint8_t *last = &frame->bytes[frame->length - 2];
    uint16_t crc = windrow_reader_crc(frame->bytes, frame->length - 2);
    uint8_t low = (uint8_t)crc, high = (uint8_t)(crc >> 8);
    if (last[0] == low && last[1] == high) {
        printf("CRC right\n");
        return true;
    }
    printf("CRC wrong: the bytes before it make %02X %02X, and %02X %02X is there", low, high, last[0], last[1]);
    printf("%s\n", last[0] == high && last[1] == low ? ": high byte first, where the low byte comes first" : "");
    return false;
}

/* The file whose address this is, 1-11, counted from a base; 0 where it is none. */
static unsigned file_at(unsigned base, unsigned address)
{
    return address > base && address <= base + WINDROW_ALARM_FILE ? address - base : 0;
}

/* A read of the live table, or of an address that is nothing else's. */
static void tell_live(uint8_t function, unsigned address, unsigned quantity)
{
    struct windrow_row row = windrow_row_of(address);
    if (row.kind == WINDROW_NONE && function == WINDROW_READ_FLAGS)
        printf("as a request: reads flags from address %u on, which is none\n", address);
    else if (row.kind == WINDROW_NONE)
        printf("as a request: reads from address %u, which is none of a gateway's\n", address);
    else if (function != windrow_function_for(row))
        printf("as a request: reads from address %u, a live point of kind %s, which function %02X reads\n", address,
               kind_word(row.kind), windrow_function_for(row));
    else
        printf("as a request: reads %u live points from %u on, of kind %s\n", quantity, address, kind_word(row.kind));
}

static void tell_read(unsigned address, unsigned quantity)
{
    unsigned file;
    if ((file = file_at(WINDROW_REQUESTED_RECORD, address)) != 0)
        printf("as a request: reads file %u's record with the requested number; the quantity, %u, is not looked at\n", file,
               quantity);
    else if ((file = file_at(WINDROW_NUMBERED_RECORD, address)) != 0)
        printf("as a request: reads file %u's record %u\n", file, quantity);
    else if ((file = file_at(WINDROW_REQUESTED_STAMP, address)) != 0)
        printf("as a request: reads the stamp of file %u's record with the requested number; the quantity, %u, is not looked at\n",
               file, quantity);
    else if ((file = file_at(WINDROW_NUMBERED_STAMP, address)) != 0)
        printf("as a request: reads the stamp of file %u's record %u\n", file, quantity);
    else if (address >= WINDROW_FIRST_REGISTER && address <= WINDROW_LAST_REGISTER)
        printf("as a request: reads %u registers from %u on, which is file %u's %s\n", quantity, address,
               (address - WINDROW_FIRST_REGISTER) / WINDROW_REGISTERS_A_FILE + 1,
               (const char *[]){"n", "pointer", "requested number"}[(address - WINDROW_FIRST_REGISTER) % WINDROW_REGISTERS_A_FILE]);
    else
        tell_live(WINDROW_READ, address, quantity);
}

static void tell_write(unsigned unit, unsigned address, unsigned value)
{
    for (unsigned file = 1; file <= WINDROW_ALARM_FILE; file++) {
        if (address == WINDROW_REQUESTED_REGISTER(file)) {
            printf("as a request%s: sets file %u's requested number to %u\n",
                   unit == 0 ? "" : ", or as the reply that echoes it", file, value);
            return;
        }
    }
    printf("as a request: writes %u to address %u, which can't be written\n", value, address);
}

/* A request has 8 bytes. A reply of three bytes has as many. */
static void tell_request(const struct frame *frame)
{
    unsigned address = windrow_get_bytes(&frame->bytes[2], 2), value = windrow_get_bytes(&frame->bytes[4], 2);
    if (frame->bytes[1] == WINDROW_READ)
        tell_read(address, value);
    else if (frame->bytes[1] == WINDROW_READ_FLAGS)
        tell_live(WINDROW_READ_FLAGS, address, value);
    else if (frame->bytes[1] == WINDROW_WRITE)
        tell_write(frame->bytes[0], address, value);
}

static bool tell_exception(const struct frame *frame)
{
    if (frame->length == 5)
        printf("as a reply: exception %u, %s, to function %02X\n", frame->bytes[2], windrow_exception_word(frame->bytes[2]),
               frame->bytes[1] & 0x7F);
    else
        printf("no exception: one has 5 bytes, and this frame %zu\n", frame->length);
    return frame->length == 5;
}

/* The data as registers, where it can be. */
static void tell_registers(const struct frame *frame)
{
    uint16_t registers[ALL_FILES * WINDROW_REGISTERS_A_FILE];
    size_t count = frame->bytes[2] / 2;
    if (count == 0 || frame->bytes[2] > sizeof registers
        || !windrow_reply_registers(frame->bytes, frame->length, registers, count))
        return;
    printf("as a reply with registers:");
    for (size_t i = 0; i < count; i++)
        printf(" %u", registers[i]);
    printf("\n");
}

/* The data as flags, by eights, each byte's lowest bit first, where it can be. */
static void tell_flags(const struct frame *frame)
{
    if (frame->bytes[1] != WINDROW_READ_FLAGS || frame->bytes[2] == 0 || frame->length != frame->bytes[2] + 5u
        || !windrow_has_crc(frame->bytes, frame->length))
        return;
    printf("as a reply with flags, the first one first:");
    for (unsigned i = 0; i < 8u * frame->bytes[2]; i++)
        printf("%s%d", i % 8 == 0 ? " " : "", frame->bytes[WINDROW_RECORD_AT + i / 8] >> i % 8 & 1);
    printf("\n");
}

/* Answers whether it is one, or a request. */
static bool tell_read_reply(const struct frame *frame)
{
    size_t count = frame->bytes[2];
    if (frame->length == count + 5)
        printf("as a reply: byte count %zu, and as many bytes of data\n", count);
    else if (frame->length != WINDROW_REQUEST_BYTES)
        printf("no request: one has 8 bytes; no reply: byte count %zu wants %zu bytes in all, and there are %zu\n", count,
               count + 5, frame->length);
    tell_registers(frame);
    tell_flags(frame);
    return frame->length == count + 5 || frame->length == WINDROW_REQUEST_BYTES;
}

static const char *function_name(uint8_t function)
{
    switch (function) {
    case WINDROW_READ_FLAGS:
        return ", read flags";
    case WINDROW_READ:
        return ", read";
    case WINDROW_WRITE:
        return ", write one register";
    default:
        return function & 0x80 ? ", an exception" : "";
    }
}

/* Answers whether the frame's length is one that its function has. */
static bool tell_function(const struct frame *frame)
{
    uint8_t function = frame->bytes[1];
    printf("function %02X%s\n", function, function_name(function));
    if (frame->length == WINDROW_REQUEST_BYTES)
        tell_request(frame);
    if (function & 0x80)
        return tell_exception(frame);
    if (function == WINDROW_READ || function == WINDROW_READ_FLAGS)
        return tell_read_reply(frame);
    if (function == WINDROW_WRITE && frame->length != WINDROW_REQUEST_BYTES)
        printf("no request and no reply: both have 8 bytes, and this frame %zu\n", frame->length);
    return function != WINDROW_WRITE || frame->length == WINDROW_REQUEST_BYTES;
}

/* The record in the frame, or the stamp alone, by a definition. */
static bool tell_record(const struct frame *frame, const struct settings *settings, uint32_t number)
{
    static struct row row;
    static const uint16_t stamp_alone[WINDROW_GROUP_NUMBERS] = {0};
    struct file file = {number, number == WINDROW_ALARM_FILE ? NULL : settings->groups[number - 1]};
    const char *what = "record";
    take_reply(&row, file, settings->day_first, frame->bytes, frame->length);
    if (row.card == WINDROW_GARBLED && row.bytes == WINDROW_STAMP_BYTES) {
        what = "stamp";
        file.number = 1; /* of any file but the alarm file */
        file.groups = stamp_alone;
        take_reply(&row, file, settings->day_first, frame->bytes, frame->length);
    }
    printf("as a %s of file %lu", what, (unsigned long)number);
    if (row.card != WINDROW_DONE) {
        printf(": %s\n", row.text);
        return row.card == WINDROW_EMPTY;
    }
    printf(", %lu bytes:\n", (unsigned long)row.bytes);
    write_headings(stdout, file);
    printf("\n%s\n", row.text);
    return true;
}

/* The live points in the frame, from this one on: as many as its bytes hold, but of flags none past their row. */
static bool tell_points(const struct frame *frame, uint32_t first)
{
    static uint8_t table[WINDROW_TABLE_BYTES];
    struct windrow_row row = windrow_row_of(first);
    uint32_t bytes = frame->length > 2 ? frame->bytes[2] : 0, flags = row.last - first + 1u;
    uint32_t count = row.size == 0 ? 8 * bytes : bytes / row.size;
    if (row.size == 0 && count > flags)
        count = flags;
    printf("as live points from %lu on", (unsigned long)first);
    if (!windrow_reply_points(frame->bytes, frame->length, table, first, count)) {
        printf(": it is no reply to %02X with such points, of kind %s, and a right CRC\n", windrow_function_for(row),
               kind_word(row.kind));
        return false;
    }
    printf(", %lu bytes:\n" POINT_HEADINGS "\n", (unsigned long)bytes);
    write_points(stdout, table, first, count);
    return true;
}

static bool explain(const struct frame *frame)
{
    printf("%zu bytes", frame->length);
    if (frame->length < 4 || frame->length > WINDROW_LONGEST_FRAME) {
        printf(": no frame, since it has under 4 or over 256; a gateway does not answer it\n");
        return false;
    }
    printf("\n");
    tell_unit(frame->bytes[0]);
    bool right = tell_crc(frame);
    return tell_function(frame) && right;
}

/* The new gateway that a request is handed to. */
struct asked {
    const struct settings *settings; /* null where there are none: then it has no files, and the request's unit */
    bool has_firmware;               /* the option says which */
    uint32_t firmware;               /* of one without settings */
};

/* Whether a request reads or requests a record of the alarm file by its number. Of that file nothing but the firmware decides. */
static bool is_of_alarm(uint8_t function, unsigned address)
{
    return (function == WINDROW_READ
            && (address == WINDROW_NUMBERED_RECORD + WINDROW_ALARM_FILE || address == WINDROW_NUMBERED_STAMP + WINDROW_ALARM_FILE))
           || (function == WINDROW_WRITE && address == WINDROW_REQUESTED_REGISTER(WINDROW_ALARM_FILE));
}

/*
 * Whether every gateway answers a request like this, with as many bytes or the same exception: registers, live points, and what
 * none knows; where the firmware is given, alarm records by number too. Others depend on a gateway's files or requested numbers.
 */
static bool is_answered_alike(const struct frame *frame, uint32_t exception, bool has_firmware)
{
    unsigned address = windrow_get_bytes(&frame->bytes[2], 2);
    return exception == WINDROW_ILLEGAL_FUNCTION || exception == WINDROW_ILLEGAL_ADDRESS
           || windrow_row_of(address).kind != WINDROW_NONE
           || (frame->bytes[1] == WINDROW_READ && address >= WINDROW_FIRST_REGISTER && address <= WINDROW_LAST_REGISTER)
           || (has_firmware && is_of_alarm(frame->bytes[1], address));
}

/* Makes the gateway; false where none has this unit. */
static bool make_gateway(struct store *store, const struct asked *asked, uint8_t unit)
{
    static uint8_t least[WINDROW_LEAST_ARCHIVE(WINDROW_FIRMWARE_74)];
    if (asked->settings != NULL) {
        setup_fresh(store, asked->settings);
        return true;
    }
    store->archive = least;
    store->archive_length = sizeof least;
    return windrow_fresh(&store->state, false, unit, asked->firmware, least, sizeof least) == WINDROW_DONE;
}

static void tell_gateway(const struct asked *asked)
{
    printf("%s", asked->settings != NULL ? "this gateway" : "a gateway");
    if (asked->settings == NULL && asked->has_firmware)
        printf(" of firmware %lu", (unsigned long)asked->firmware);
}

/* Hands a request to a new gateway and says what it answers. */
static void tell_answer(const struct frame *frame, const struct asked *asked)
{
    static const uint8_t table[WINDROW_TABLE_BYTES]; /* how long an answer is does not depend on what live points hold */
    struct store store;
    uint8_t reply[WINDROW_LEAST_REPLY];
    uint32_t length = 0;
    if (!make_gateway(&store, asked, frame->bytes[0]))
        return;
    struct windrow_state before = store.state;
    uint32_t number = windrow_poll(&store.state, store.archive, store.archive_length, table, sizeof table, frame->bytes,
                                   frame->length, reply, sizeof reply, &length);
    if (asked->settings != NULL)
        free(store.archive);
    uint32_t exception = windrow_reply_exception(reply, length);
    if (number != WINDROW_DONE || (asked->settings == NULL && !is_answered_alike(frame, exception, asked->has_firmware)))
        return;
    tell_gateway(asked);
    if (length == 0)
        printf(" does not answer it%s\n", memcmp(&before, &store.state, sizeof before) != 0 ? ", but does it" : "");
    else if (exception != 0)
        printf(" answers it with exception %lu, %s\n", (unsigned long)exception, windrow_exception_word(exception));
    else
        printf(" answers it with %lu bytes\n", (unsigned long)length);
}

/* A point of the live table. */
static uint32_t option_point(const char *name, const char *text)
{
    uint32_t point = option_whole(name, text, 1, UINT16_MAX);
    if (windrow_row_of(point).kind == WINDROW_NONE)
        misused("%s takes a point of the live table, not `%s`", name, text);
    return point;
}

int main(int count, char **words)
{
    static struct frame frame;
    static struct settings settings;
    const char *path = NULL, *number = NULL, *point = NULL, *firmware = NULL;
    const struct known_option known[] = {{"--settings", &path, NULL}, {"--file", &number, NULL}, {"--live", &point, NULL},
                                         {FIRMWARE_OPTION, &firmware, NULL}, {NULL, NULL, NULL}};
    const char *const pages[] = {help, settings_help, NULL};
    report_as("windrow-frame");
    int plain = options_take(count, words, known, pages);
    if (plain == 0)
        misused("a frame in hexadecimal is wanted");
    uint32_t file = number == NULL ? 0 : option_whole("--file", number, 1, ALL_FILES);
    uint32_t first = point == NULL ? 0 : option_point("--live", point);
    if (path == NULL && number != NULL)
        misused("--file needs --settings");
    if (file != 0 && first != 0)
        misused("a reply has a record or live points, not both");
    for (int i = 1; i <= plain; i++)
        take_hex(&frame, words[i]);
    struct asked asked = {path == NULL ? NULL : &settings, firmware != NULL,
                          firmware == NULL ? WINDROW_FIRMWARE_74 : option_firmware(firmware)};
    setup_judge_firmware(asked.firmware, FIRMWARE_OPTION);
    if (path != NULL)
        settings_read(&settings, path, firmware);
    bool fine = explain(&frame);
    if (fine && frame.length == WINDROW_REQUEST_BYTES && (frame.bytes[1] & 0x80) == 0 && file == 0 && first == 0)
        tell_answer(&frame, &asked);
    if (file != 0)
        fine = tell_record(&frame, &settings, file) && fine;
    if (first != 0)
        fine = tell_points(&frame, first) && fine;
    finish_output();
    return fine ? EXIT_FINE : EXIT_TROUBLE;
}
