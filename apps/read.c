/* windrow-read: polls a gateway over a line and writes its files, or its live points, as CSV. */
#include <errno.h>
#include <limits.h>
#include <signal.h>
#include <stdbool.h>
#include <stdio.h>
#include <stdlib.h>
#include <string.h>
#include <sys/stat.h>
#include <time.h>
#include <unistd.h>

#include "csv.h"
#include "line.h"
#include "options.h"
#include "polling.h"
#include "report.h"
#include "settings.h"

static const char help[] =
    "windrow-read DEVICE SETTINGS [FILE | FILE=CSV]..: reads files of a gateway over a serial line, oldest record first\n"
    "windrow-read DEVICE SETTINGS --live [POINT | FIRST-LAST]..: reads its live table, what its probes hold now\n"
    "\n"
    "FILE is 1-10, or 11 for the alarm file. One FILE alone goes to standard output; FILE=CSV goes to that file, which\n"
    "is replaced when all is read. Without a FILE, n, pointer and requested number of every file are written.\n"
    "A record whose date or time does not exist is told and left out; the status is then 1.\n"
    "Texts are written as they come, but without the zeros at the end, and a backslash and what is no printable ASCII as\n"
    "\\xHH. Since 2.2 gateways have ? for a byte that is neither 00 nor 20 to 7E hex, when they capture and when live points\n"
    "are polled; records of before stay as they were filed.\n"
    "SETTINGS are the gateway's own: unit, date order, the files' groups, speed and parity of the line. Their firmware is not\n"
    "looked at: how many records the alarm file has, 150 or 500, the gateway says.\n"
    "\n"
    "  --live        points of the live table instead of files, a line each: point, kind and value. FIRST-LAST are points\n"
    "                of one row of it; up to 64 such words are taken. Without any, all 432 are read, by 11 polls, each of which\n"
    "                has the table as it is then. Of the settings it takes only unit, speed and parity. Gateways before 2.0\n"
    "                have none to read.\n"
    "  --follow      goes on with each new record, until it is interrupted (then it looks once more)\n"
    "  --every MS    how often it looks, in milliseconds (200). A file must not go round between two looks.\n"
    "  --wait MS     how long it waits for an answer (1000)\n"
    "  --tries N     how often it asks before it gives up (3)\n"
    "  --help        this page\n"
    "\n";

/* A file that is read, and where its rows go. */
struct reading {
    struct file file;
    const char *path; /* null for standard output */
    char beside[PATH_MAX]; /* what is renamed to it, or empty where it is written directly */
    FILE *out;
    bool headed, begun; /* its heading is written; its first look is over */
    uint16_t limit, last; /* n, and the pointer up to which rows are written */
};

/* Points of one row of the live table. */
struct run {
    uint32_t first, count;
};

#define MOST_RUNS 64

struct reader {
    struct settings settings;
    struct line_end line;
    int wait_ms;
    bool follow;
    bool following; /* its first look is over: a signal then ends it after one look more, and before at once */
    int every_ms;
    bool left_out; /* some record was, since it is undated */
    struct source source;
    struct reading readings[ALL_FILES];
    int count;
    bool live; /* these points are read, and no files */
    struct run runs[MOST_RUNS];
    int run_count;
};

static volatile sig_atomic_t interrupted = 0;

static void interrupt(int signal)
{
    (void)signal;
    interrupted = 1;
}

/* How long a reply is, as far as its first bytes tell; a reply to a read has its byte count, an exception is 5 bytes. */
static size_t length_told(const uint8_t *reply, size_t length)
{
    bool counts = length >= 3 && (reply[1] == WINDROW_READ || reply[1] == WINDROW_READ_FLAGS);
    size_t told = counts ? 5u + reply[2] : 5;
    return told < WINDROW_LONGEST_FRAME ? told : WINDROW_LONGEST_FRAME;
}

/* A signal that comes just before a wait does not end it, so none is longer. */
#define LONGEST_WAIT 250

/* Asks over the line: a reply ends where its byte count says so, or when the time is up. */
static size_t exchange(void *self, const uint8_t request[WINDROW_REQUEST_BYTES], uint8_t reply[WINDROW_LONGEST_FRAME])
{
    struct reader *reader = self;
    size_t length = 0, told;
    int64_t until = line_clock() + reader->wait_ms, now;
    line_forget(&reader->line);
    line_send(&reader->line, request, WINDROW_REQUEST_BYTES);
    while (length < (told = length_told(reply, length)) && (now = line_clock()) < until) {
        if (interrupted && !reader->following)
            give_up("interrupted");
        int wait_ms = until - now < LONGEST_WAIT ? (int)(until - now) : LONGEST_WAIT;
        length += line_take(&reader->line, reply + length, told - length, wait_ms);
    }
    return length;
}

/* Where several requests were sent, their answers may come as far apart as those were. */
static void settle(void *self, bool for_late_answer)
{
    struct reader *reader = self;
    line_settle(&reader->line, for_late_answer ? 2 * reader->wait_ms : (int)reader->line.gap_ms);
}

static void show_progress(const struct reading *reading, uint32_t done, uint32_t all)
{
    if (isatty(STDERR_FILENO) && (done % 16 == 0 || done == all))
        fprintf(stderr, "\rfile %lu: %lu of %lu%s", (unsigned long)reading->file.number, (unsigned long)done, (unsigned long)all,
                done == all ? "\n" : "");
}

/* A record as it was read: its row, or why it is left out; no text where it is empty. */
struct read_row {
    char *text;
    bool undated;
};

static void free_rows(struct read_row *rows, uint32_t count)
{
    for (uint32_t i = 0; i < count; i++)
        free(rows[i].text);
    free(rows);
}

/* The rows of `count` records from number `first` on; null where one can't be had. */
static struct read_row *read_rows(struct reader *reader, const struct reading *reading, uint16_t first, uint32_t count)
{
    static struct row row;
    struct read_row *rows = calloc(count, sizeof *rows);
    if (rows == NULL)
        give_up("there is no memory for %lu rows", (unsigned long)count);
    for (uint32_t i = 0; i < count; i++) {
        if (!poll_record(&reader->source, reading->file, number_after(first, i, reading->limit), &row)) {
            free_rows(rows, count);
            return NULL;
        }
        rows[i].undated = row.undated;
        if (row.card != WINDROW_EMPTY && (rows[i].text = strdup(row.text)) == NULL)
            give_up("there is no memory for a row");
        show_progress(reading, i + 1, count);
    }
    return rows;
}

/*
 * How many of the oldest rows were captured over while they were read, so that they may be newer records out of turn: the
 * gateway's pointer has gone on by so many numbers, and `count` of the file's records were read.
 */
static uint32_t captured_over(const struct reading *reading, uint32_t count, struct registers then, struct registers now)
{
    if (now.pointer == 0 || now.limit != then.limit)
        return count; /* emptied meanwhile */
    uint32_t gone_on = (uint32_t)(now.pointer + reading->limit - then.pointer) % reading->limit;
    uint32_t untouched = reading->limit - count;
    return gone_on > untouched ? gone_on - untouched : 0;
}

/* A device or a pipe can't be replaced, and is written as it is; so is standard output. */
static bool is_replaced(const char *path)
{
    struct stat there;
    return path != NULL && (stat(path, &there) != 0 || S_ISREG(there.st_mode));
}

static void open_output(struct reading *reading)
{
    const char *name = reading->path;
    if (is_replaced(name)) {
        if (snprintf(reading->beside, sizeof reading->beside, "%s.new", name) >= (int)sizeof reading->beside)
            give_up("the path is too long: %s", name);
        name = reading->beside;
    }
    reading->out = name == NULL ? stdout : fopen(name, "w");
    if (reading->out == NULL) {
        int why = errno;
        reading->beside[0] = 0; /* there is none to remove */
        give_up("%s can't be written: %s", reading->path, strerror(why));
    }
}

/* The heading goes out with the first rows, so that a failed read leaves nothing that looks like an empty file. */
static void write_heading(struct reading *reading)
{
    if (reading->headed)
        return;
    fputs("record,", reading->out);
    write_headings(reading->out, reading->file);
    fputc('\n', reading->out);
    reading->headed = true;
}

/* What was written is in the file; after the first look the file gets its name. */
static void settle_output(struct reading *reading, bool first)
{
    const char *name = reading->path != NULL ? reading->path : "standard output";
    if (fflush(reading->out) != 0 || ferror(reading->out))
        give_up("%s can't be written: %s", name, strerror(errno));
    if (first && reading->beside[0] != 0 && rename(reading->beside, reading->path) != 0)
        give_up("%s can't be written: %s", name, strerror(errno));
}

/* How many records there are to read: at a first look the whole file, then those since the last one. */
static uint32_t records_to_read(const struct reading *reading, bool first, struct registers now)
{
    if (now.limit == 0 || now.pointer == 0)
        return 0;
    if (first)
        return now.limit;
    if (reading->last == 0)
        return now.pointer; /* it was empty at the last look */
    return (uint32_t)(now.pointer + now.limit - reading->last) % now.limit;
}

static void write_row(struct reader *reader, struct reading *reading, uint16_t number, struct read_row row)
{
    if (row.undated)
        tell_left_out(reading->file, number, row.text);
    else if (row.text != NULL)
        fprintf(reading->out, "%u,%s\n", number, row.text);
    reader->left_out |= row.undated;
}

/* Reads so many records up to the pointer, and writes those that were not captured over meanwhile. */
static bool copy_records(struct reader *reader, struct reading *reading, uint32_t count, bool first, struct registers then)
{
    struct registers now[ALL_FILES];
    uint16_t oldest = number_after(then.pointer, then.limit - count + 1, then.limit);
    struct read_row *rows = read_rows(reader, reading, oldest, count);
    if (rows == NULL)
        return false;
    bool answered = poll_registers(&reader->source, now);
    if (answered) {
        write_heading(reading);
        uint32_t over = captured_over(reading, count, then, now[reading->file.number - 1]);
        if (over > 0 && !first)
            complain("file %lu: %lu records were captured over before they were read", (unsigned long)reading->file.number,
                     (unsigned long)over);
        for (uint32_t i = over; i < count; i++)
            write_row(reader, reading, number_after(oldest, i, then.limit), rows[i]);
    }
    free_rows(rows, count);
    return answered;
}

/* What a user may wonder at, by the file's n. */
static void tell_limit(const struct reader *reader, const struct reading *reading)
{
    unsigned long file = reading->file.number;
    uint16_t limit = reading->limit;
    if (file != WINDROW_ALARM_FILE && limit != reader->settings.limits[file - 1])
        complain("file %lu holds %u records at most, and the settings say %u: are they this gateway's?", file, limit,
                 reader->settings.limits[file - 1]);
    if (limit == 0)
        complain("file %lu is idle: it holds no records", file);
    if (limit == 1 && reader->follow)
        complain("file %lu holds one record: a pointer that stays 1 shows no new one", file);
}

/* Writes what is new in a file since the last look, or at the first look all that it has. False where it can't be had. */
static bool look_at_file(struct reader *reader, struct reading *reading, struct registers now)
{
    bool first = !reading->begun || now.limit != reading->limit;
    reading->limit = now.limit;
    if (first)
        tell_limit(reader, reading);
    uint32_t count = records_to_read(reading, first, now);
    if (count > 0 && !copy_records(reader, reading, count, first, now))
        return false;
    write_heading(reading);
    settle_output(reading, !reading->begun);
    reading->begun = true;
    reading->last = now.pointer;
    return true;
}

static bool look(struct reader *reader)
{
    struct registers all[ALL_FILES];
    if (!poll_registers(&reader->source, all))
        return false;
    for (int i = 0; i < reader->count; i++)
        if (!look_at_file(reader, &reader->readings[i], all[reader->readings[i].file.number - 1]))
            return false;
    return true;
}

/* Waits until the next look, or until a signal comes; one that comes just before a sleep does not end it, so none is long. */
static void pause_until_look(const struct reader *reader)
{
    int64_t until = line_clock() + reader->every_ms, left;
    while (!interrupted && (left = until - line_clock()) > 0) {
        struct timespec pause = {0, (left < LONGEST_WAIT ? left : LONGEST_WAIT) * 1000000L};
        nanosleep(&pause, NULL);
    }
}

/* Looks again and again. A gateway that once answered may be silent for a while; that is told once each time. */
static bool follow(struct reader *reader)
{
    bool silent = false, ended = false;
    reader->following = true;
    while (!ended) {
        pause_until_look(reader);
        ended = interrupted;
        bool was_silent = silent;
        reader->source.quiet = silent;
        silent = !look(reader);
        if (silent && !ended)
            settle(reader, true);
        if (silent && !was_silent && !ended)
            complain("it goes on trying");
        if (was_silent && !silent)
            complain("there are answers again");
        if (was_silent && silent && ended)
            complain("there is still no answer");
    }
    return !silent;
}

static bool write_registers(struct reader *reader)
{
    struct registers all[ALL_FILES];
    if (!poll_registers(&reader->source, all))
        return false;
    printf("file,n,pointer,requested\n");
    for (int i = 0; i < ALL_FILES; i++)
        printf("%d,%u,%u,%u\n", i + 1, all[i].limit, all[i].pointer, all[i].requested);
    return true;
}

/* Nothing is written before all is read, so that what a failed read leaves does not look like a table. */
static bool write_live(struct reader *reader)
{
    static uint8_t table[WINDROW_TABLE_BYTES];
    for (int i = 0; i < reader->run_count; i++)
        if (!poll_points(&reader->source, reader->runs[i].first, reader->runs[i].count, table))
            return false;
    printf(POINT_HEADINGS "\n");
    for (int i = 0; i < reader->run_count; i++)
        write_points(stdout, table, reader->runs[i].first, reader->runs[i].count);
    return true;
}

static bool is_digit(char c)
{
    return '0' <= c && c <= '9';
}

/* FILE or FILE=CSV. */
static void add_reading(struct reader *reader, const char *word)
{
    char *end;
    unsigned long number = strtoul(word, &end, 10);
    if (!is_digit(word[0]) || number < 1 || number > ALL_FILES || (*end != 0 && *end != '=') || strcmp(end, "=") == 0)
        misused("`%s` is no FILE or FILE=CSV; files are 1-11", word);
    for (int i = 0; i < reader->count; i++)
        if (reader->readings[i].file.number == number || reader->readings[i].path == NULL || *end == 0)
            misused("`%s`: a file can be read once, and only one alone to standard output", word);
    for (int i = 0; *end == '=' && i < reader->count; i++)
        if (strcmp(reader->readings[i].path, end + 1) == 0)
            misused("`%s`: another file is to be written there already", word);
    struct reading *reading = &reader->readings[reader->count++];
    reading->file.number = (uint32_t)number;
    reading->file.groups = number == WINDROW_ALARM_FILE ? NULL : reader->settings.groups[number - 1];
    reading->path = *end == '=' ? end + 1 : NULL;
}

/* POINT or FIRST-LAST. */
static void add_run(struct reader *reader, const char *word)
{
    char *end = NULL;
    unsigned long first = is_digit(word[0]) ? strtoul(word, &end, 10) : 0, last = first;
    if (end != NULL && *end == '-' && is_digit(end[1]))
        last = strtoul(end + 1, &end, 10);
    struct windrow_row row = windrow_row_of(first <= UINT16_MAX ? (uint32_t)first : 0);
    if (row.kind == WINDROW_NONE || *end != 0 || last < first || last > row.last)
        misused("`%s` is no POINT of the live table or FIRST-LAST within a row of it", word);
    if (reader->run_count == MOST_RUNS)
        misused("points can be given %d times at most", MOST_RUNS);
    struct run run = {(uint32_t)first, (uint32_t)(last - first + 1)};
    reader->runs[reader->run_count++] = run;
}

static void add_all_rows(struct reader *reader)
{
    static const uint16_t firsts[] = {WINDROW_FIRST_FLAG,  WINDROW_FIRST_INT16, WINDROW_FIRST_TEXT8,
                                      WINDROW_FIRST_INT32, WINDROW_FIRST_FLOAT, WINDROW_FIRST_TEXT16};
    for (size_t i = 0; i < sizeof firsts / sizeof firsts[0]; i++) {
        struct run run = {firsts[i], windrow_row_of(firsts[i]).last - firsts[i] + 1u};
        reader->runs[reader->run_count++] = run;
    }
}

/* What is to be read: the words from number `from` on. */
static void take_words(struct reader *reader, char **words, int from, int last)
{
    if (reader->live && reader->follow)
        misused("--follow is for files; --live reads once");
    for (int i = from; i <= last; i++) {
        if (reader->live)
            add_run(reader, words[i]);
        else
            add_reading(reader, words[i]);
    }
    if (reader->live && reader->run_count == 0)
        add_all_rows(reader);
    if (reader->follow && reader->count == 0)
        misused("--follow wants a FILE");
}

static void parse(struct reader *reader, int count, char **words)
{
    const char *every = "200", *wait = "1000", *tries = "3";
    const struct known_option known[] = {
        {"--follow", NULL, &reader->follow}, {"--every", &every, NULL},       {"--wait", &wait, NULL},
        {"--tries", &tries, NULL},           {"--live", NULL, &reader->live}, {NULL, NULL, NULL},
    };
    const char *const pages[] = {help, settings_help, NULL};
    int plain = options_take(count, words, known, pages);
    if (plain < 2)
        misused("a device and a settings file are wanted");
    reader->every_ms = (int)option_whole("--every", every, 1, 3600000);
    reader->wait_ms = (int)option_whole("--wait", wait, 1, 3600000);
    reader->source.tries = (int)option_whole("--tries", tries, 1, 100);
    settings_read(&reader->settings, words[2], NULL);
    take_words(reader, words, 3, plain);
    if (reader->settings.unit < WINDROW_LEAST_UNIT || reader->settings.unit > WINDROW_MOST_UNIT)
        give_up("%s: unit %lu is not 1-247", words[2], (unsigned long)reader->settings.unit);
    reader->source.unit = (uint8_t)reader->settings.unit;
    reader->source.day_first = reader->settings.day_first;
    reader->source.exchange = exchange;
    reader->source.settle = settle;
    reader->source.self = reader;
}

static struct reader reader;

/* What was not read to its end is not left beside the file that it was to replace. */
static void remove_unfinished(void)
{
    for (int i = 0; i < reader.count; i++)
        if (!reader.readings[i].begun && reader.readings[i].beside[0] != 0)
            unlink(reader.readings[i].beside);
}

int main(int count, char **words)
{
    report_as("windrow-read");
    parse(&reader, count, words);
    line_open_device(&reader.line, words[1], &reader.settings);
    struct sigaction action = {.sa_handler = interrupt};
    sigaction(SIGINT, &action, NULL);
    sigaction(SIGTERM, &action, NULL);
    atexit(remove_unfinished);
    for (int i = 0; i < reader.count; i++)
        open_output(&reader.readings[i]);
    bool fine = reader.live ? write_live(&reader) : reader.count == 0 ? write_registers(&reader) : look(&reader);
    if (fine && reader.follow)
        fine = follow(&reader);
    finish_output();
    return fine && !reader.left_out ? EXIT_FINE : EXIT_TROUBLE;
}
