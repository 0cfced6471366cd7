#include "polling.h"

#include <string.h>

#include "calendar.h"
#include "csv.h"
#include "report.h"
#include "words.h"

/* What came back to a request. */
enum outcome { ANSWERED, REFUSED_BY_EXCEPTION, NO_ANSWER, GARBLED_ANSWER, OTHERS_ANSWER };

static enum outcome outcome_of(const uint8_t *request, const uint8_t *reply, size_t length)
{
    if (length == 0)
        return NO_ANSWER;
    if (!windrow_has_crc(reply, length))
        return GARBLED_ANSWER;
    if (reply[0] != request[0])
        return OTHERS_ANSWER;
    if (windrow_reply_exception(reply, length) != 0 && reply[1] == (request[1] | 0x80))
        return REFUSED_BY_EXCEPTION;
    return reply[1] == request[1] ? ANSWERED : GARBLED_ANSWER;
}

static void tell(enum outcome outcome, const char *what, const uint8_t *request, const uint8_t *reply)
{
    switch (outcome) {
    case ANSWERED:
        break;
    case REFUSED_BY_EXCEPTION:
        complain("%s: the gateway answers exception %u, %s", what, reply[2], windrow_exception_word(reply[2]));
        break;
    case NO_ANSWER:
        complain("%s: no answer in time from unit %u", what, request[0]);
        break;
    case GARBLED_ANSWER:
        complain("%s: the answer is garbled (its CRC or its function is wrong): noise, or another speed or parity?", what);
        break;
    case OTHERS_ANSWER:
        complain("%s: unit %u answers, and unit %u was asked", what, reply[0], request[0]);
        break;
    }
}

static bool is_answer(enum outcome outcome)
{
    return outcome == ANSWERED || outcome == REFUSED_BY_EXCEPTION;
}

/*
 * Asks until a frame of the right unit and function comes, an exception too, as often as the source wants it tried. An answer
 * does not say which request it is to, so that after more than one the rest must not be taken for the next poll's.
 */
static enum outcome ask(struct source *source, uint8_t function, uint32_t address, uint32_t quantity, const char *what,
                        uint8_t reply[WINDROW_LONGEST_FRAME], size_t *length)
{
    uint8_t request[WINDROW_REQUEST_BYTES];
    windrow_request(request, source->unit, function, (uint16_t)address, (uint16_t)quantity);
    enum outcome outcome = NO_ANSWER;
    int asked;
    for (asked = 0; asked < source->tries && !is_answer(outcome); asked++) {
        if (asked > 0 && source->settle != NULL)
            source->settle(source->self, false);
        *length = source->exchange(source->self, request, reply);
        outcome = outcome_of(request, reply, *length);
    }
    if (source->settle != NULL && asked > 1 && is_answer(outcome))
        source->settle(source->self, true);
    if (!source->quiet)
        tell(outcome, what, request, reply);
    return outcome;
}

/* An answer that has other data than was asked for. */
static void tell_size(const struct source *source, const char *what, const uint8_t *reply, size_t wanted)
{
    if (!source->quiet)
        complain("%s: %u bytes came, and %zu were asked for", what, reply[2], wanted);
}

bool poll_registers(struct source *source, struct registers files[ALL_FILES])
{
    enum { COUNT = ALL_FILES * WINDROW_REGISTERS_A_FILE };
    uint8_t reply[WINDROW_LONGEST_FRAME];
    uint16_t values[COUNT];
    size_t length;
    if (ask(source, WINDROW_READ, WINDROW_FIRST_REGISTER, COUNT, "registers", reply, &length) != ANSWERED)
        return false;
    if (!windrow_reply_registers(reply, length, values, COUNT)) {
        tell_size(source, "registers", reply, 2 * COUNT);
        return false;
    }
    for (int i = 0; i < ALL_FILES; i++) {
        const uint16_t *three = &values[WINDROW_REGISTERS_A_FILE * i];
        files[i].limit = three[0];
        files[i].pointer = three[1];
        files[i].requested = three[2];
    }
    return true;
}

/* A point's value in a cell at the row's end. */
static void add_point(struct row *row, struct windrow_point point, const uint8_t *frame)
{
    char cell[CELL_BYTES];
    struct value value = {(enum windrow_kind)point.kind, windrow_point_int(point), windrow_point_float(point), frame + point.place,
                          point.length};
    cell_of(cell, value);
    size_t used = strlen(row->text);
    snprintf(row->text + used, sizeof row->text - used, ",%s", cell);
}

/* Every point of a record, place by place. */
static void add_points(struct row *row, const uint16_t *groups, bool day_first, const uint8_t *frame, size_t length)
{
    for (uint32_t place = 1; place <= WINDROW_PLACES; place++) {
        for (uint32_t i = 1; i <= groups[2 * place - 1]; i++) {
            struct windrow_point point = windrow_reader_point(groups, WINDROW_GROUP_NUMBERS, day_first, frame, length, place, i);
            if (point.number == WINDROW_DONE)
                add_point(row, point, frame);
        }
    }
}

static void take_alarm(struct row *row, bool day_first, const uint8_t *frame, size_t length)
{
    struct windrow_alarm_answer alarm = windrow_read_alarm(day_first, frame, length);
    row->card = alarm.number;
    if (alarm.number != WINDROW_DONE)
        return;
    char cell[CELL_BYTES];
    struct value transducer = {WINDROW_FLOAT, 0, alarm.transducer, NULL, 0};
    row->stamp = alarm.stamp;
    calendar_text(row->text, row->stamp);
    cell_of(cell, transducer);
    snprintf(row->text + CALENDAR_TEXT - 1, sizeof row->text - CALENDAR_TEXT, ",%u,%u,%u,%s,%ld,%ld", alarm.point, alarm.type,
             alarm.bit, cell, (long)alarm.passes, (long)alarm.litres);
}

static void take_points(struct row *row, struct file file, bool day_first, const uint8_t *frame, size_t length)
{
    struct windrow_stamp_answer when = windrow_reader_stamp(file.groups, WINDROW_GROUP_NUMBERS, day_first, frame, length);
    row->card = when.number;
    if (when.number != WINDROW_DONE)
        return;
    row->stamp = when.stamp;
    calendar_text(row->text, row->stamp);
    add_points(row, file.groups, day_first, frame, length);
}

static void take_record(struct row *row, struct file file, bool day_first, const uint8_t *frame, size_t length)
{
    if (file.number == WINDROW_ALARM_FILE)
        take_alarm(row, day_first, frame, length);
    else
        take_points(row, file, day_first, frame, length);
}

/* Whether a record would be taken in the other date order. */
static bool is_dated_otherwise(struct file file, bool day_first, const uint8_t *frame, size_t length)
{
    static struct row other;
    take_record(&other, file, !day_first, frame, length);
    return other.card == WINDROW_DONE;
}

/* The reply is right but for the stamp of its record. */
static void explain_stamp(struct row *row, struct file file, bool day_first, const uint8_t *frame, size_t length)
{
    const uint8_t *stamp = &frame[WINDROW_RECORD_AT];
    row->undated = !is_dated_otherwise(file, day_first, frame, length);
    snprintf(row->text, sizeof row->text, "14 Garbled: its stamp %02X %02X %02X %02X %02X %02X %s", stamp[0], stamp[1], stamp[2],
             stamp[3], stamp[4], stamp[5],
             row->undated ? "is no date and time: damaged, or filed before version 1.1?"
                          : "is a date in the other order only: the wrong date order, or damaged?");
}

/* Puts into words why a record was not taken. */
static void explain_refusal(struct row *row, struct file file, bool day_first, const uint8_t *frame, size_t length)
{
    char card[CARD_TEXT];
    size_t wanted = file.number == WINDROW_ALARM_FILE ? WINDROW_ALARM_BYTES : windrow_record_bytes(file.groups);
    if (row->card != WINDROW_GARBLED)
        snprintf(row->text, sizeof row->text, "%s", card_text(card, row->card));
    else if (!windrow_has_crc(frame, length) || frame[1] != WINDROW_READ || length != 5u + frame[2])
        snprintf(row->text, sizeof row->text, "14 Garbled: it is no reply to 03 with a right CRC");
    else if (row->bytes != wanted)
        snprintf(row->text, sizeof row->text, "14 Garbled: it has %lu bytes, and a record of this definition has %zu",
                 (unsigned long)row->bytes, wanted);
    else if (frame[0] < WINDROW_LEAST_UNIT || frame[0] > WINDROW_MOST_UNIT)
        snprintf(row->text, sizeof row->text, "14 Garbled: its unit %u is not 1-247", frame[0]);
    else
        explain_stamp(row, file, day_first, frame, length);
}

void take_reply(struct row *row, struct file file, bool day_first, const uint8_t *frame, size_t length)
{
    row->bytes = length > 2 ? frame[2] : 0;
    row->undated = false;
    take_record(row, file, day_first, frame, length);
    if (row->card != WINDROW_DONE)
        explain_refusal(row, file, day_first, frame, length);
}

bool poll_record(struct source *source, struct file file, uint16_t number, struct row *row)
{
    uint8_t frame[WINDROW_LONGEST_FRAME];
    char what[64];
    size_t length;
    snprintf(what, sizeof what, "file %lu, record %u", (unsigned long)file.number, number);
    row->card = WINDROW_GARBLED; /* until a reply says otherwise */
    row->bytes = 0;
    if (ask(source, WINDROW_READ, WINDROW_NUMBERED_RECORD + file.number, number, what, frame, &length) != ANSWERED)
        return false;
    take_reply(row, file, source->day_first, frame, length);
    if (row->card == WINDROW_DONE || row->card == WINDROW_EMPTY || row->undated)
        return true;
    if (!source->quiet)
        complain("%s: %s", what, row->text);
    return false;
}

/* One poll of live points, no more than it can read. */
static bool poll_run(struct source *source, struct windrow_row row, uint32_t first, uint32_t count,
                     uint8_t table[WINDROW_TABLE_BYTES])
{
    uint8_t frame[WINDROW_LONGEST_FRAME];
    char what[64];
    size_t length;
    snprintf(what, sizeof what, "points %lu-%lu", (unsigned long)first, (unsigned long)(first + count - 1));
    enum outcome outcome = ask(source, windrow_function_for(row), first, count, what, frame, &length);
    uint8_t before_2 = windrow_function_for(row) == WINDROW_READ ? WINDROW_ILLEGAL_ADDRESS : WINDROW_ILLEGAL_FUNCTION;
    if (outcome == REFUSED_BY_EXCEPTION && frame[2] == before_2 && !source->quiet)
        complain("gateways before version 2.0 have no live points to read");
    if (outcome != ANSWERED)
        return false;
    bool taken = windrow_reply_points(frame, length, table, first, count);
    if (!taken)
        tell_size(source, what, frame, windrow_points_bytes(row, count));
    return taken;
}

bool poll_points(struct source *source, uint32_t first, uint32_t count, uint8_t table[WINDROW_TABLE_BYTES])
{
    struct windrow_row row = windrow_row_of(first);
    uint32_t most = windrow_most_points(row);
    for (; count > most; first += most, count -= most)
        if (!poll_run(source, row, first, most, table))
            return false;
    return poll_run(source, row, first, count, table);
}

void tell_left_out(struct file file, uint16_t number, const char *why)
{
    complain("file %lu, record %u: %s", (unsigned long)file.number, number, why);
}

void write_headings(FILE *out, struct file file)
{
    fputs("stamp", out);
    if (file.number == WINDROW_ALARM_FILE)
        fputs(",point,type,bit,transducer,passes,litres", out);
    else
        for (int place = 0; place < WINDROW_PLACES; place++)
            for (uint32_t i = 0; i < file.groups[2 * place + 1]; i++)
                fprintf(out, ",%lu", (unsigned long)file.groups[2 * place] + i);
}

uint16_t number_after(uint16_t number, uint32_t steps, uint16_t limit)
{
    return (uint16_t)((number + steps - 1) % limit + 1);
}
