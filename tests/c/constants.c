/*
 * Every constant of the headers, as lines of its name and value; the card's words; and the rows of the live table as the lookup
 * gives them. The model writes the same lines by itself (tests/model/src/bin/constants.rs); tests/run compares the two and
 * sees that no constant of include/ is left out here.
 */
#include <assert.h>
#include <stdio.h>

#include "windrow_gateway.h"
#include "windrow_reader.h"

#define SHOW(name) printf(#name " %ld\n", (long)(name))

/* A macro that takes a firmware, as an array's size. */
#define SHOW_FOR(firmware, name) printf(#name " %d %zu\n", firmware, sizeof(char[name(firmware)]))

static void limits(void)
{
    SHOW(WINDROW_PLACES);
    SHOW(WINDROW_GROUP_NUMBERS);
    SHOW(WINDROW_FILES);
    SHOW(WINDROW_ALARM_FILE);
    SHOW(WINDROW_MOST_RECORDS);
    SHOW(WINDROW_FIRMWARE_73);
    SHOW(WINDROW_FIRMWARE_74);
    SHOW_FOR(WINDROW_FIRMWARE_73, WINDROW_ALARM_RECORDS);
    SHOW_FOR(WINDROW_FIRMWARE_74, WINDROW_ALARM_RECORDS);
    SHOW(WINDROW_ALARM_SLOTS);
    SHOW(WINDROW_TABLE_BYTES);
    SHOW(WINDROW_STAMP_BYTES);
    SHOW(WINDROW_LONGEST_RECORD);
    SHOW(WINDROW_ALARM_BYTES);
    SHOW_FOR(WINDROW_FIRMWARE_73, WINDROW_LEAST_ARCHIVE);
    SHOW_FOR(WINDROW_FIRMWARE_74, WINDROW_LEAST_ARCHIVE);
    SHOW(WINDROW_MOST_ARCHIVE);
    SHOW(WINDROW_CENTURY);
    SHOW(WINDROW_STATE_BYTES);
    assert(sizeof(struct windrow_state) == WINDROW_STATE_BYTES && sizeof(struct windrow_stamp) == WINDROW_STAMP_BYTES);
}

static void lines(void)
{
    SHOW(WINDROW_LEAST_UNIT);
    SHOW(WINDROW_MOST_UNIT);
    SHOW(WINDROW_REQUEST_BYTES);
    SHOW(WINDROW_LONGEST_FRAME);
    SHOW(WINDROW_LEAST_REPLY);
    SHOW(WINDROW_MOST_DATA);
    SHOW(WINDROW_RECORD_AT);
    SHOW(WINDROW_READ_FLAGS);
    SHOW(WINDROW_READ);
    SHOW(WINDROW_WRITE);
    SHOW(WINDROW_REQUESTED_RECORD);
    SHOW(WINDROW_NUMBERED_RECORD);
    SHOW(WINDROW_REQUESTED_STAMP);
    SHOW(WINDROW_NUMBERED_STAMP);
    SHOW(WINDROW_FIRST_REGISTER);
    SHOW(WINDROW_LAST_REGISTER);
    SHOW(WINDROW_REGISTERS_A_FILE);
    for (int file = 1; file <= WINDROW_ALARM_FILE; file++) {
        printf("WINDROW_LIMIT_REGISTER %d %d\n", file, WINDROW_LIMIT_REGISTER(file));
        printf("WINDROW_POINTER_REGISTER %d %d\n", file, WINDROW_POINTER_REGISTER(file));
        printf("WINDROW_REQUESTED_REGISTER %d %d\n", file, WINDROW_REQUESTED_REGISTER(file));
    }
}

static void points(void)
{
    SHOW(WINDROW_FIRST_FLAG);
    SHOW(WINDROW_LAST_FLAG);
    SHOW(WINDROW_FLAGS_AT);
    SHOW(WINDROW_FIRST_INT16);
    SHOW(WINDROW_LAST_INT16);
    SHOW(WINDROW_INT16S_AT);
    SHOW(WINDROW_FIRST_TEXT8);
    SHOW(WINDROW_LAST_TEXT8);
    SHOW(WINDROW_TEXT8S_AT);
    SHOW(WINDROW_FIRST_INT32);
    SHOW(WINDROW_LAST_INT32);
    SHOW(WINDROW_INT32S_AT);
    SHOW(WINDROW_FIRST_FLOAT);
    SHOW(WINDROW_LAST_FLOAT);
    SHOW(WINDROW_FLOATS_AT);
    SHOW(WINDROW_FIRST_TEXT16);
    SHOW(WINDROW_LAST_TEXT16);
    SHOW(WINDROW_TEXT16S_AT);
    SHOW(WINDROW_TURNER_PASSES);
    SHOW(WINDROW_LITRES_OF_WATER);
}

static void kinds_and_exceptions(void)
{
    SHOW(WINDROW_NONE);
    SHOW(WINDROW_FLAG);
    SHOW(WINDROW_INT16);
    SHOW(WINDROW_INT32);
    SHOW(WINDROW_FLOAT);
    SHOW(WINDROW_TEXT);
    SHOW(WINDROW_ILLEGAL_FUNCTION);
    SHOW(WINDROW_ILLEGAL_ADDRESS);
    SHOW(WINDROW_ILLEGAL_VALUE);
    for (uint32_t code = 0; code <= 4; code++)
        printf("exception %u %s\n", code, windrow_exception_word(code));
}

static void card(void)
{
    SHOW(WINDROW_DONE);
    SHOW(WINDROW_MEMORY);
    SHOW(WINDROW_FOREIGN);
    SHOW(WINDROW_TABLE);
    SHOW(WINDROW_CLOCK);
    SHOW(WINDROW_FILE);
    SHOW(WINDROW_LOCKED);
    SHOW(WINDROW_GROUP);
    SHOW(WINDROW_LONG);
    SHOW(WINDROW_TRIGGER);
    SHOW(WINDROW_RUNNING);
    SHOW(WINDROW_ROOM);
    SHOW(WINDROW_ALARM);
    SHOW(WINDROW_REPLY);
    SHOW(WINDROW_GARBLED);
    SHOW(WINDROW_EMPTY);
    SHOW(WINDROW_BEYOND);
    for (uint32_t number = 0; number <= 17; number++)
        printf("word %u %s\n", number, windrow_card_word(number));
    printf("word %u %s\n", UINT32_MAX, windrow_card_word(UINT32_MAX));
}

/* The row that the lookup gives: its kind, first and last point, bytes a point and start. */
static void row(uint32_t point)
{
    struct windrow_row found = windrow_row_of(point);
    printf("row of %u: %d %u %u %u %u\n", point, found.kind, found.first, found.last, found.size, found.at);
}

/* Each row at both ends and beside them, and numbers that are points only when they are cut to 16 bits. */
static void rows(void)
{
    static const uint16_t ends[][2] = {
        {WINDROW_FIRST_FLAG, WINDROW_LAST_FLAG},     {WINDROW_FIRST_INT16, WINDROW_LAST_INT16},
        {WINDROW_FIRST_TEXT8, WINDROW_LAST_TEXT8},   {WINDROW_FIRST_INT32, WINDROW_LAST_INT32},
        {WINDROW_FIRST_FLOAT, WINDROW_LAST_FLOAT},   {WINDROW_FIRST_TEXT16, WINDROW_LAST_TEXT16},
    };
    for (size_t i = 0; i < sizeof ends / sizeof ends[0]; i++) {
        row(ends[i][0] - 1u);
        row(ends[i][0]);
        row(ends[i][1]);
        row(ends[i][1] + 1u);
        row(65536u + ends[i][0]);
    }
    row(0);
    row(UINT32_MAX);
}

int main(void)
{
    limits();
    lines();
    points();
    kinds_and_exceptions();
    card();
    rows();
    return 0;
}
