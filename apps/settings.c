#include "settings.h"

#include <errno.h>
#include <stdio.h>
#include <stdlib.h>
#include <string.h>

#include "calendar.h"
#include "options.h"
#include "report.h"

const char settings_help[] =
    "A settings file has a line for each setting; # begins a comment. Only `unit` must be there; of the others\n"
    "that have one value, the one shown here holds where nothing is said.\n"
    "  unit 17                     the gateway's Modbus unit, 1-247\n"
    "  dates month-first           or day-first: the order of a stamp's first two bytes\n"
    "  firmware 74                 or 73: the alarm file has 500 records or 150; 73 is for a site whose drivers were made\n"
    "                              for that firmware, whether they stop at record 150 or read on\n"
    "  archive 65536               bytes of archive memory, 11,000 (firmware 73: 3,300) to 1,048,576\n"
    "  file 1 96 7101:3 5101:3     file 1-10, the most records, its groups: first point and number of points\n"
    "                              (0:0 is an unused place)\n"
    "  trigger 1 1801              the flag whose rise captures a record of file 1; 0 for none\n"
    "  alarm 1 1805 0 7101         slot 1-32, its flag or 0, type 0-3, its transducer (a float) or 0:\n"
    "                              types 0 and 2 log any change of the flag, 1 and 3 a rise only; of one scan falls\n"
    "                              (cleared) come first, then rises (raised), each by flag, then slot\n"
    "  at 2026-06-07T00:00:00 trigger 1 1802     sets a trigger or an alarm slot when the clock gets there\n"
    "  begin 2026-05-01T06:00:00   when the clock of a simulated yard starts\n"
    "  scan 600                    seconds from one scan of it to the next, 1-1800\n"
    "  baud 19200                  of a serial line: 1200, 2400, 4800, 9600, 19200, 38400, 57600 or 115200; 8 bits\n"
    "  parity even                 of a serial line: even, odd or none\n"
    "  gap 5                       milliseconds of silence that end a frame, 1-1000; on a device at least 3.5 characters\n";

#define MOST_WORDS 40
#define LONGEST_LINE 1024

/* A line that is being read: where it is, and its words. */
struct line {
    struct settings *settings;
    int number;
    char *words[MOST_WORDS];
    int count;
};

_Noreturn static void bad_line(const struct line *line, const char *what, const char *word)
{
    give_up("%s:%d: %s%s%s", line->settings->path, line->number, what, word != NULL ? ": " : "", word != NULL ? word : "");
}

static uint32_t number(const struct line *line, const char *word, uint32_t least, uint32_t most)
{
    char *end;
    errno = 0;
    unsigned long value = strtoul(word, &end, 10);
    if (word[0] < '0' || word[0] > '9' || *end != 0 || errno != 0)
        bad_line(line, "this is no number", word);
    if (value < least || value > most)
        give_up("%s:%d: this number is not %lu to %lu: %s", line->settings->path, line->number, (unsigned long)least,
                (unsigned long)most, word);
    return (uint32_t)value;
}

static struct windrow_stamp date(const struct line *line, const char *word)
{
    struct windrow_stamp stamp;
    if (!calendar_parse(word, &stamp))
        bad_line(line, "there is no such date; one is written as 2026-05-01T06:00:00", word);
    return stamp;
}

static void want_words(const struct line *line, int count)
{
    if (line->count != count)
        bad_line(line, "too few or too many words for this setting", line->words[0]);
}

/* file F N FIRST:COUNT ..; points and counts are for the library to judge. */
static void take_file(const struct line *line)
{
    struct settings *settings = line->settings;
    if (line->count < 3)
        bad_line(line, "`file` needs a file and the most records", NULL);
    uint32_t file = number(line, line->words[1], 1, WINDROW_FILES);
    if (settings->lines[file - 1] != 0)
        bad_line(line, "this file is defined twice", line->words[1]);
    settings->lines[file - 1] = line->number;
    settings->limits[file - 1] = (uint16_t)number(line, line->words[2], 0, WINDROW_MOST_RECORDS);
    if (line->count - 3 > WINDROW_PLACES)
        bad_line(line, "a file has 16 groups at most", NULL);
    for (int i = 3; i < line->count; i++) {
        char *colon = strchr(line->words[i], ':');
        if (colon == NULL)
            bad_line(line, "a group is FIRST:COUNT", line->words[i]);
        *colon = 0;
        settings->groups[file - 1][2 * (i - 3)] = (uint16_t)number(line, line->words[i], 0, UINT16_MAX);
        settings->groups[file - 1][2 * (i - 3) + 1] = (uint16_t)number(line, colon + 1, 0, UINT16_MAX);
    }
}

/* trigger F POINT, or alarm SLOT POINT TYPE TRANSDUCER, from word `from` on. */
static void take_change(const struct line *line, int from, bool timed, struct windrow_stamp at)
{
    struct settings *settings = line->settings;
    if (settings->change_count == MOST_CHANGES)
        bad_line(line, "there are too many triggers and alarms", NULL);
    bool alarm = strcmp(line->words[from], "alarm") == 0;
    want_words(line, from + (alarm ? 5 : 3));
    struct change change = {alarm ? SET_ALARM : SET_TRIGGER, timed, at, 0, 0, 0, 0, line->number};
    change.index = number(line, line->words[from + 1], 0, UINT32_MAX);
    change.point = number(line, line->words[from + 2], 0, UINT32_MAX);
    if (alarm) {
        change.type = number(line, line->words[from + 3], 0, UINT32_MAX);
        change.transducer = number(line, line->words[from + 4], 0, UINT32_MAX);
    }
    settings->changes[settings->change_count++] = change;
}

static bool is_change(const char *word)
{
    return strcmp(word, "trigger") == 0 || strcmp(word, "alarm") == 0;
}

static void take_timed(const struct line *line)
{
    if (line->count < 3 || !is_change(line->words[2]))
        bad_line(line, "`at` needs a date and a trigger or an alarm", NULL);
    struct windrow_stamp at = date(line, line->words[1]);
    const struct settings *settings = line->settings;
    for (size_t i = 0; i < settings->change_count; i++)
        if (settings->changes[i].timed && calendar_seconds(settings->changes[i].at) > calendar_seconds(at))
            bad_line(line, "this date is before that of an earlier `at`", line->words[1]);
    take_change(line, 2, true, at);
}

static void take_baud(const struct line *line)
{
    static const uint32_t speeds[] = {1200, 2400, 4800, 9600, 19200, 38400, 57600, 115200};
    line->settings->baud = number(line, line->words[1], 0, UINT32_MAX);
    for (size_t i = 0; i < sizeof speeds / sizeof speeds[0]; i++)
        if (line->settings->baud == speeds[i])
            return;
    bad_line(line, "a line can't have this baud", line->words[1]);
}

static void take_parity(const struct line *line)
{
    static const char *const names[] = {"even", "odd", "none"};
    for (int i = 0; i < 3; i++) {
        if (strcmp(line->words[1], names[i]) == 0) {
            line->settings->parity = (enum parity)i;
            return;
        }
    }
    bad_line(line, "parity is even, odd or none", line->words[1]);
}

/* Which numbers are a firmware is for the library to judge. Where the option gives one, the line is only read. */
static void take_firmware(const struct line *line)
{
    struct settings *settings = line->settings;
    uint32_t firmware = number(line, line->words[1], 0, UINT32_MAX);
    if (!settings->has_firmware_option)
        settings->firmware = firmware;
}

static void take_dates(const struct line *line)
{
    line->settings->day_first = strcmp(line->words[1], "day-first") == 0;
    if (!line->settings->day_first && strcmp(line->words[1], "month-first") != 0)
        bad_line(line, "dates are month-first or day-first", line->words[1]);
}

/* A setting of one value. */
static void take_value(const struct line *line)
{
    struct settings *settings = line->settings;
    const char *name = line->words[0];
    want_words(line, 2);
    if (strcmp(name, "unit") == 0)
        settings->unit = number(line, line->words[1], 0, UINT32_MAX);
    else if (strcmp(name, "firmware") == 0)
        take_firmware(line);
    else if (strcmp(name, "dates") == 0)
        take_dates(line);
    else if (strcmp(name, "archive") == 0)
        settings->archive_length = number(line, line->words[1], 0, UINT32_MAX);
    else if (strcmp(name, "begin") == 0)
        settings->begin = date(line, line->words[1]);
    else if (strcmp(name, "scan") == 0)
        settings->scan_seconds = number(line, line->words[1], 1, 1800);
    else if (strcmp(name, "baud") == 0)
        take_baud(line);
    else if (strcmp(name, "parity") == 0)
        take_parity(line);
    else if (strcmp(name, "gap") == 0)
        settings->gap_ms = number(line, line->words[1], 1, 1000);
}

/* Each setting of one value may stand once. */
static const char *const single[] = {"unit", "firmware", "dates", "archive", "begin", "scan", "baud", "parity", "gap"};
#define SINGLES (sizeof single / sizeof single[0])

static void take_line(const struct line *line, bool taken[SINGLES])
{
    static const struct windrow_stamp never = {0, 0, 0, 0, 0, 0};
    const char *name = line->words[0];
    if (strcmp(name, "file") == 0) {
        take_file(line);
        return;
    }
    if (is_change(name)) {
        take_change(line, 0, false, never);
        return;
    }
    if (strcmp(name, "at") == 0) {
        take_timed(line);
        return;
    }
    for (size_t i = 0; i < SINGLES; i++) {
        if (strcmp(name, single[i]) != 0)
            continue;
        if (taken[i])
            bad_line(line, "this is set twice", name);
        taken[i] = true;
        take_value(line);
        return;
    }
    bad_line(line, "there is no such setting", name);
}

static void split(struct line *line, char *text)
{
    char *comment = strchr(text, '#');
    if (comment != NULL)
        *comment = 0;
    line->count = 0;
    for (char *word = strtok(text, " \t\r\n"); word != NULL; word = strtok(NULL, " \t\r\n")) {
        if (line->count == MOST_WORDS)
            bad_line(line, "this line has too many words", NULL);
        line->words[line->count++] = word;
    }
}

/* What holds where the file says nothing, and the firmware of the option, if there is one. */
static void begin_settings(struct settings *settings, const char *path, const char *firmware)
{
    static const struct windrow_stamp first_of_may = {5, 1, 26, 6, 0, 0};
    memset(settings, 0, sizeof *settings);
    settings->path = path;
    settings->firmware = firmware == NULL ? WINDROW_FIRMWARE_74 : option_firmware(firmware);
    settings->has_firmware_option = firmware != NULL;
    settings->firmware_by = firmware == NULL ? path : FIRMWARE_OPTION;
    settings->archive_length = 65536;
    settings->begin = first_of_may;
    settings->scan_seconds = 600;
    settings->baud = 19200;
    settings->gap_ms = 5;
}

/* Bytes that are in no text: control characters, and zeros, behind which a line that was read seems to end. */
static bool is_text(const char *text, bool is_last)
{
    size_t length = strlen(text);
    if (length == 0 || (text[length - 1] != '\n' && !is_last))
        return false;
    for (; *text != 0; text++)
        if (((unsigned char)*text < ' ' && strchr("\t\r\n", *text) == NULL) || *text == 0x7F)
            return false;
    return true;
}

void settings_read(struct settings *settings, const char *path, const char *firmware)
{
    begin_settings(settings, path, firmware);
    FILE *file = fopen(path, "r");
    if (file == NULL)
        give_up("the settings %s can't be read: %s", path, strerror(errno));
    bool taken[SINGLES] = {false};
    char text[LONGEST_LINE];
    struct line line = {settings, 0, {NULL}, 0};
    while (fgets(text, sizeof text, file) != NULL) {
        line.number++;
        size_t length = strlen(text);
        if (length + 1 == sizeof text && text[length - 1] != '\n')
            bad_line(&line, "this line is too long", NULL);
        if (!is_text(text, feof(file) != 0))
            bad_line(&line, "this line has bytes that are no text: is it a settings file?", NULL);
        split(&line, text);
        if (line.count > 0)
            take_line(&line, taken);
    }
    if (ferror(file))
        give_up("the settings %s can't be read: %s", path, strerror(errno));
    fclose(file);
    if (!taken[0])
        give_up("%s has no line `unit`: is it a settings file?", path);
}
