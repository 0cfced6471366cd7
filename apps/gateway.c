/* windrow-gateway: a gateway on a serial line, or on a pseudo-terminal, over a simulated yard or a recorded trace. */
#include <errno.h>
#include <signal.h>
#include <stdbool.h>
#include <stdio.h>
#include <stdlib.h>
#include <string.h>
#include <sys/stat.h>
#include <unistd.h>

#include "calendar.h"
#include "line.h"
#include "options.h"
#include "report.h"
#include "settings.h"
#include "setup.h"
#include "store.h"
#include "trace.h"
#include "windrow_gateway.h"
#include "yard.h"

static const char help[] =
    "windrow-gateway SETTINGS [OPTION..]: runs a gateway that answers Modbus RTU polls\n"
    "\n"
    "  --device PATH     on this serial device; without it, on a pseudo-terminal that is opened and named\n"
    "  --link PATH       a symbolic link to that pseudo-terminal, as long as the gateway runs\n"
    "  --store FILE      keeps state and archive there, and goes on from it; it outlives kill -9\n"
    "  --redefine        lays a store out anew where the settings define other files, which empties every file\n"
    "  --firmware N      73 or 74, instead of the settings' line: the alarm file has 150 records or 500. A store keeps the\n"
    "                    firmware that it was made with, and is refused with another; one of before version 3.0 is of 74\n"
    "  --trace FILE      the stamps and live tables of a recorded trace, instead of the simulated yard: a record a scan,\n"
    "                    each month, day, year, hour, minute, second (a byte each) and the 1,424 bytes of the table\n"
    "  --record FILE     writes each scan's stamp and table there, as a trace\n"
    "  --speed X         the clock runs X times as fast; 1 where nothing is said\n"
    "  --scans N         ends after N scans, those that a store already has included\n"
    "  --hold            goes on answering after the last scan, until it is interrupted\n"
    "  --help            this page\n"
    "\n"
    "A poll of live points, by 01 of flags and by 03 of others, reads the table of the latest scan, be it one that a store\n"
    "already has or one that is refused for its date. Before the first scan all are zeros. What is captured and what is polled\n"
    "live has ? for each byte of a text that is neither 00 nor 20 to 7E hex; a recorded trace has the bytes as they were.\n"
    "\n";

struct options {
    const char *settings, *firmware, *device, *link, *store, *trace, *record;
    bool redefine, hold;
    double speed;
    uint32_t scans;
};

/* A running gateway: its store, and where its tables come from. */
struct host {
    struct options options;
    struct settings settings;
    struct store store;
    struct line_end line;
    struct yard yard;
    FILE *trace, *record;
    size_t timed; /* the next change of the settings that may have a date to come */
    struct windrow_stamp stamp; /* of the latest scan, and its table: what the probes hold until the next */
    uint8_t table[WINDROW_TABLE_BYTES];
    uint32_t polls;
};

static volatile sig_atomic_t interrupted = 0;

static void interrupt(int signal)
{
    (void)signal;
    interrupted = 1;
}

static struct options parse(int count, char **words)
{
    const char *speed = "1", *scans = "4294967294";
    struct options o = {NULL, NULL, NULL, NULL, NULL, NULL, NULL, false, false, 0, 0};
    const struct known_option known[] = {
        {"--device", &o.device, NULL}, {"--link", &o.link, NULL},     {"--store", &o.store, NULL},
        {"--trace", &o.trace, NULL},   {"--record", &o.record, NULL}, {"--speed", &speed, NULL},
        {"--scans", &scans, NULL},     {"--hold", NULL, &o.hold},     {"--redefine", NULL, &o.redefine},
        {FIRMWARE_OPTION, &o.firmware, NULL}, {NULL, NULL, NULL},
    };
    const char *const pages[] = {help, settings_help, yard_help, NULL};
    if (options_take(count, words, known, pages) != 1)
        misused("exactly one settings file is wanted");
    o.settings = words[1];
    o.speed = option_number("--speed", speed, 0.001, 1e7);
    o.scans = option_whole("--scans", scans, 0, UINT32_MAX - 1);
    return o;
}

/* Ends the program where a trace would be recorded over another file that it needs. */
static void want_apart(const char *record, const char *other, const char *what)
{
    struct stat one, two;
    if (record != NULL && other != NULL && stat(record, &one) == 0 && stat(other, &two) == 0 && one.st_dev == two.st_dev
        && one.st_ino == two.st_ino)
        misused("--record would write over the %s %s", what, other);
}

/* The next scan's stamp and table; false at a trace's end. */
static bool next_table(struct host *host)
{
    if (host->trace != NULL)
        return trace_next(host->trace, &host->stamp, host->table);
    yard_pass(&host->yard, host->settings.scan_seconds);
    host->stamp = calendar_stamp(host->yard.now);
    yard_fill(&host->yard, host->table);
    return true;
}

/* The yard or the trace, behind the scans that the store has, and the settings' changes that were due by then. */
static void open_source(struct host *host)
{
    if (host->options.trace != NULL)
        host->trace = trace_open(host->options.trace);
    else
        yard_begin(&host->yard, calendar_seconds(host->settings.begin));
    for (uint32_t done = 0; done < host->store.scans; done++) {
        if (!next_table(host))
            give_up("the trace %s is shorter than the scans in the store", host->options.trace);
        host->timed = setup_timed(&host->store, &host->settings, host->timed, host->stamp);
    }
}

/* The recorded trace has the scans of the store and goes on from there: what was scanned and not stored is scanned again. */
static void open_record(struct host *host)
{
    const char *path = host->options.record;
    if (path == NULL)
        return;
    host->record = fopen(path, host->store.scans > 0 ? "r+b" : "wb");
    if (host->record == NULL)
        give_up("the trace %s can't be written: %s", path, strerror(errno));
    off_t keep = (off_t)host->store.scans * TRACE_BYTES;
    if (fseeko(host->record, 0, SEEK_END) != 0 || ftello(host->record) < keep)
        give_up("the trace %s lacks scans that the store has", path);
    if (ftruncate(fileno(host->record), keep) != 0 || fseeko(host->record, keep, SEEK_SET) != 0)
        give_up("the trace %s can't be written: %s", path, strerror(errno));
}

static void save(const struct host *host)
{
    if (host->options.store != NULL)
        store_save(&host->store, host->options.store);
}

/* A scan whose date or time does not exist, as a clock may give one after its battery was replaced. */
static void tell_passed_over(const struct host *host)
{
    struct windrow_stamp stamp = host->stamp;
    complain("scan %lu is refused, and passed over: %u-%02u-%02uT%02u:%02u:%02u is no date and time",
             (unsigned long)host->store.scans + 1, WINDROW_CENTURY + stamp.year, stamp.month, stamp.day, stamp.hour, stamp.minute,
             stamp.second);
}

/* Once a cycle. Whatever a scan captures, it also changes the state: the flag that rose is remembered. */
static void scan(struct host *host)
{
    struct store *store = &host->store;
    struct windrow_state before = store->state;
    host->timed = setup_timed(store, &host->settings, host->timed, host->stamp);
    uint32_t number =
        windrow_scan(&store->state, store->archive, store->archive_length, host->table, sizeof host->table, host->stamp);
    if (number == WINDROW_CLOCK)
        tell_passed_over(host);
    else if (number != WINDROW_DONE)
        setup_refused("a scan", number);
    if (host->record != NULL && !trace_append(host->record, host->stamp, host->table))
        give_up("the trace %s can't be written: %s", host->options.record, strerror(errno));
    store->scans++;
    if (memcmp(&before, &store->state, sizeof before) == 0)
        return;
    if (host->record != NULL && fflush(host->record) != 0)
        give_up("the trace %s can't be written: %s", host->options.record, strerror(errno));
    save(host);
}

/* A frame that came over the line, if one does within the time. */
static void serve(struct host *host, int wait_ms)
{
    struct store *store = &host->store;
    uint8_t frame[WINDROW_LONGEST_FRAME + 1], reply[WINDROW_LEAST_REPLY]; /* one byte more shows that a frame is too long */
    size_t length = line_receive(&host->line, frame, sizeof frame, wait_ms);
    if (length == 0)
        return;
    struct windrow_state before = store->state;
    uint32_t to_send;
    uint32_t number = windrow_poll(&store->state, store->archive, store->archive_length, host->table, sizeof host->table, frame,
                                   length, reply, sizeof reply, &to_send);
    if (number != WINDROW_DONE)
        setup_refused("a poll", number);
    if (memcmp(&before, &store->state, sizeof before) != 0)
        save(host); /* before the answer: what was acknowledged is stored */
    line_send(&host->line, reply, to_send);
    host->polls++;
}

/* A signal that comes just before a wait does not end it, and stale replies are dropped between waits: none is longer. */
#define LONGEST_WAIT (LINE_STALE_MS / 2)

/* Milliseconds from one scan to the next. */
static double scan_period(const struct host *host)
{
    return host->settings.scan_seconds * 1000.0 / host->options.speed;
}

/* Scans when it is time and answers polls in between, until the last scan, the trace's end or a signal. */
static void run(struct host *host)
{
    double start = (double)line_clock();
    uint32_t first = host->store.scans;
    while (!interrupted && host->store.scans < host->options.scans) {
        double left = start + (host->store.scans - first) * scan_period(host) - (double)line_clock();
        if (left <= 0) {
            if (!next_table(host))
                break;
            scan(host);
        }
        serve(host, left <= 0 ? 0 : left < LONGEST_WAIT ? (int)left + 1 : LONGEST_WAIT);
    }
    printf("scanned %lu times", (unsigned long)host->store.scans);
    if (host->store.scans > 0) {
        char text[CALENDAR_TEXT];
        calendar_text(text, host->stamp);
        printf(", last at %s", text);
    }
    printf("\n");
    fflush(stdout);
    while (!interrupted && host->options.hold)
        serve(host, LONGEST_WAIT);
}

static void open_line(struct host *host)
{
    if (host->options.device != NULL)
        line_open_device(&host->line, host->options.device, &host->settings);
    else
        line_open_pty(&host->line, &host->settings);
}

static const char *link_made = NULL;

static void remove_link(void)
{
    if (link_made != NULL)
        unlink(link_made);
}

/* Another link of that name is replaced, as one that a gateway left that was killed; anything else is somebody's. */
static void make_link(const char *device, const char *link)
{
    struct stat there;
    if (lstat(link, &there) == 0 && !S_ISLNK(there.st_mode))
        give_up("the link %s can't be made: there is something else of that name", link);
    unlink(link);
    if (symlink(device, link) != 0)
        give_up("the link %s can't be made: %s", link, strerror(errno));
    link_made = link;
    atexit(remove_link);
}

/* Says where clients find the gateway. */
static void announce(const struct host *host)
{
    if (host->options.link != NULL)
        make_link(host->line.path, host->options.link);
    printf("device: %s\n", host->line.path);
    fflush(stdout);
}

int main(int count, char **words)
{
    static struct host host;
    report_as("windrow-gateway");
    host.options = parse(count, words);
    want_apart(host.options.record, host.options.settings, "settings");
    want_apart(host.options.record, host.options.store, "store");
    want_apart(host.options.record, host.options.trace, "trace");
    settings_read(&host.settings, host.options.settings, host.options.firmware);
    if (host.options.store != NULL)
        store_lock(host.options.store);
    if (host.options.store == NULL || !store_load(&host.store, host.options.store))
        setup_fresh(&host.store, &host.settings);
    else
        setup_again(&host.store, &host.settings, host.options.store, host.options.redefine);
    open_source(&host);
    open_line(&host);
    open_record(&host);
    save(&host);
    struct sigaction action = {.sa_handler = interrupt};
    sigaction(SIGINT, &action, NULL);
    sigaction(SIGTERM, &action, NULL);
    announce(&host);
    run(&host);
    if (host.record != NULL && fclose(host.record) != 0)
        give_up("the trace %s can't be written: %s", host.options.record, strerror(errno));
    printf("answered or passed over %lu frames\n", (unsigned long)host.polls);
    finish_output();
    return EXIT_FINE;
}
