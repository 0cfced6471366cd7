/* windrow-dump: what a stored state and its archive hold, for support. */
#include <stdbool.h>
#include <stdio.h>
#include <stdlib.h>
#include <string.h>

#include "calendar.h"
#include "foreign.h"
#include "options.h"
#include "polling.h"
#include "report.h"
#include "store.h"
#include "windrow_gateway.h"
#include "words.h"

static const char help[] =
    "windrow-dump STORE, or windrow-dump STATE ARCHIVE: writes what a gateway's memory holds\n"
    "\n"
    "STORE is the file that windrow-gateway keeps with --store; STATE and ARCHIVE are the bytes of a struct windrow_state\n"
    "and of the archive memory that firmware has saved. Written are flags and settings, for each file its definition,\n"
    "n, pointer, oldest and newest stamp, and its records as CSV, oldest first, as they lie in the archive. A text is\n"
    "without the zeros at its end, and a backslash and what is no printable ASCII are \\xHH; of the latter gateways since\n"
    "2.2 capture none but 00. A record whose date or time does not exist is told and left out, a Foreign state told by the\n"
    "clauses that it breaks; the status is then 1.\n"
    "\n"
    "  --file F      only the records of file F, 1-11, as CSV\n"
    "  --format 1    STATE is one that releases 1 and 2 saved: it names no firmware, and is shown as of 74, which has as many\n"
    "                alarm records. Without it STATE is of format 2. A STORE names its own format\n"
    "  --help        this page\n";

/* A poll is answered by the library itself, in this program. */
static size_t exchange(void *self, const uint8_t request[WINDROW_REQUEST_BYTES], uint8_t reply[WINDROW_LONGEST_FRAME])
{
    static const uint8_t no_table[WINDROW_TABLE_BYTES]; /* no live table is stored, and none is asked for */
    const struct store *store = self;
    struct windrow_state state = store->state; /* a poll may change a state, and this one is only looked at */
    uint32_t length;
    uint32_t number = windrow_poll(&state, store->archive, store->archive_length, no_table, sizeof no_table, request,
                                   WINDROW_REQUEST_BYTES, reply, WINDROW_LONGEST_FRAME, &length);
    return number == WINDROW_DONE ? length : 0;
}

static void load_pair(struct store *store, const char *state_path, const char *archive_path, uint32_t format)
{
    size_t length;
    uint8_t *bytes = file_bytes(state_path, WINDROW_MOST_ARCHIVE, &length);
    if (length != WINDROW_STATE_BYTES)
        give_up("%s is no state: it has %zu bytes and not %d", state_path, length, WINDROW_STATE_BYTES);
    if (!windrow_state_from_bytes(&store->state, bytes, format))
        give_up("%s is no state: a bool in it is neither 0 nor 1", state_path);
    free(bytes);
    store->archive = file_bytes(archive_path, WINDROW_MOST_ARCHIVE, &store->archive_length);
    store->scans = 0;
}

/* Ends the program where the library refuses the state, after telling why. One that is raw, out of no store, names no format. */
static void want_good(const struct store *store, bool is_raw)
{
    struct windrow_state state = store->state;
    uint32_t number = windrow_lock(&state, store->archive, store->archive_length);
    char text[CARD_TEXT];
    if (number == WINDROW_DONE)
        return;
    if (number == WINDROW_MEMORY)
        give_up("the archive has %zu bytes, and the state is of one with %lu (1 Memory)", store->archive_length,
                (unsigned long)state.site.archive_length);
    complain("the state is refused: %s:", card_text(text, number));
    if (tell_clauses(stderr, &store->state, store->archive, store->archive_length) == 0)
        fprintf(stderr, "  by several parts together\n");
    if (is_raw && store->state.site.firmware == 0 && store->state.site.unit != 0)
        fprintf(stderr, "  (a state that releases 1 and 2 saved has firmware 0: --format 1 takes such a one)\n");
    exit(EXIT_TROUBLE);
}

static const char *on_off(bool on)
{
    return on ? "on" : "off";
}

static void write_site(const struct windrow_state *state)
{
    printf("unit %u, %s dates, archive of %lu bytes, firmware %u\n", state->site.unit,
           state->site.day_first ? "day-first" : "month-first", (unsigned long)state->site.archive_length, state->site.firmware);
    printf("running %s, unlocked %s, pending %s\n", on_off(state->flags.running), on_off(state->flags.unlocked),
           on_off(state->flags.pending));
    if (!state->seen.scanned) {
        printf("no scan yet\n");
        return;
    }
    printf("points on at the latest scan:");
    uint8_t table[WINDROW_TABLE_BYTES] = {0};
    memcpy(table, state->seen.booleans, sizeof state->seen.booleans);
    for (uint32_t point = WINDROW_FIRST_FLAG; point <= WINDROW_LAST_FLAG; point++) {
        bool on = false;
        if (windrow_get_flag(table, point, &on) && on)
            printf(" %lu", (unsigned long)point);
    }
    printf("\n");
}

static void write_slots(const struct windrow_state *state)
{
    for (int i = 0; i < WINDROW_ALARM_SLOTS; i++) {
        struct windrow_slot slot = state->settings.slots[i];
        if (slot.point != 0)
            printf("alarm slot %d: point %u, type %u, transducer %u\n", i + 1, slot.point, slot.type, slot.transducer);
    }
}

static void write_groups(const char *what, const struct windrow_definitions *definitions, uint32_t file)
{
    const uint16_t *groups = &definitions->groups[WINDROW_GROUP_NUMBERS * (file - 1)];
    int places = WINDROW_PLACES;
    while (places > 0 && groups[2 * places - 2] == 0 && groups[2 * places - 1] == 0)
        places--;
    printf("  %s: n %u, groups", what, definitions->limits[file - 1]);
    for (int i = 0; i < places; i++)
        printf(" %u:%u", groups[2 * i], groups[2 * i + 1]);
    printf("%s\n", places == 0 ? " none" : "");
}

static bool is_drafted_otherwise(const struct windrow_state *state, uint32_t file)
{
    const struct windrow_definitions *draft = &state->settings.draft, *layout = &state->files.layout;
    size_t at = WINDROW_GROUP_NUMBERS * (file - 1);
    return draft->limits[file - 1] != layout->limits[file - 1]
           || memcmp(&draft->groups[at], &layout->groups[at], WINDROW_GROUP_NUMBERS * sizeof draft->groups[0]) != 0;
}

static struct file file_of(const struct store *store, uint32_t number)
{
    struct file file = {number, NULL};
    if (number != WINDROW_ALARM_FILE)
        file.groups = &store->state.files.layout.groups[WINDROW_GROUP_NUMBERS * (number - 1)];
    return file;
}

/* What a walk along a file has found. */
struct found {
    uint32_t held;         /* records that could be read */
    uint32_t record_bytes; /* stamp included */
    struct windrow_stamp oldest, newest;
    bool fine; /* every record could be read */
};

/* Writes every record, oldest first, as CSV. */
static struct found write_records(FILE *out, struct source *source, struct file file, struct registers registers)
{
    static struct row row;
    struct found found = {0};
    found.fine = true;
    fputs("record,", out);
    write_headings(out, file);
    fputc('\n', out);
    for (uint32_t i = 1; i <= registers.limit; i++) {
        uint16_t number = number_after(registers.pointer, i, registers.limit);
        bool polled = poll_record(source, file, number, &row);
        if (polled && row.undated)
            tell_left_out(file, number, row.text);
        found.fine &= polled && !row.undated;
        found.record_bytes = row.bytes;
        if (row.card != WINDROW_DONE)
            continue;
        fprintf(out, "%u,%s\n", number, row.text);
        if (found.held++ == 0)
            found.oldest = row.stamp;
        found.newest = row.stamp;
    }
    return found;
}

/* How much a file holds and from when to when, and then its records. */
static bool write_file(struct source *source, struct file file, struct registers registers)
{
    char *records, oldest[CALENDAR_TEXT], newest[CALENDAR_TEXT];
    size_t length;
    FILE *out = open_memstream(&records, &length);
    if (out == NULL)
        give_up("there is no memory for a file's records");
    struct found found = write_records(out, source, file, registers);
    if (fclose(out) != 0)
        give_up("there is no memory for a file's records");
    printf("  %lu records of %lu bytes", (unsigned long)found.held, (unsigned long)found.record_bytes);
    calendar_text(oldest, found.oldest);
    calendar_text(newest, found.newest);
    if (found.held > 0)
        printf(", oldest %s, newest %s", oldest, newest);
    printf("\n%s", records);
    free(records);
    return found.fine;
}

static void write_file_head(const struct store *store, uint32_t number, struct registers registers)
{
    const struct windrow_state *state = &store->state;
    if (number == WINDROW_ALARM_FILE) {
        printf("\nalarm file (11): n %u, pointer %u, requested %u\n", registers.limit, registers.pointer, registers.requested);
        return;
    }
    printf("\nfile %lu: n %u, pointer %u, requested %u, trigger %u\n", (unsigned long)number, registers.limit, registers.pointer,
           registers.requested, state->settings.triggers[number - 1]);
    write_groups("laid out", &state->files.layout, number);
    if (is_drafted_otherwise(state, number))
        write_groups("drafted", &state->settings.draft, number);
}

static bool is_worth_telling(const struct store *store, uint32_t number)
{
    return number == WINDROW_ALARM_FILE || store->state.files.layout.limits[number - 1] > 0
           || store->state.settings.triggers[number - 1] != 0 || is_drafted_otherwise(&store->state, number);
}

static bool write_all(const struct store *store, struct source *source, const struct registers *registers)
{
    bool fine = true;
    write_site(&store->state);
    write_slots(&store->state);
    for (uint32_t number = 1; number <= ALL_FILES; number++) {
        if (!is_worth_telling(store, number))
            continue;
        write_file_head(store, number, registers[number - 1]);
        if (registers[number - 1].limit == 0)
            continue;
        fine = write_file(source, file_of(store, number), registers[number - 1]) && fine;
    }
    return fine;
}

/* A store, or a state of this format and an archive. */
static void load(struct store *store, char **words, int plain, const char *format)
{
    if (plain != 1 && plain != 2)
        misused("a store, or a state and an archive, is wanted");
    if (plain == 1 && format != NULL)
        misused("--format is for a state and an archive; a store names its own");
    if (plain == 2)
        load_pair(store, words[1], words[2],
                  format == NULL ? WINDROW_STATE_FORMAT
                                 : option_whole("--format", format, WINDROW_STATE_FORMAT_1, WINDROW_STATE_FORMAT));
    else if (!store_load(store, words[1]))
        give_up("there is no store %s", words[1]);
}

int main(int count, char **words)
{
    static struct store store;
    const char *file = NULL, *format = NULL;
    const struct known_option known[] = {{"--file", &file, NULL}, {"--format", &format, NULL}, {NULL, NULL, NULL}};
    const char *const pages[] = {help, NULL};
    report_as("windrow-dump");
    int plain = options_take(count, words, known, pages);
    uint32_t only = file == NULL ? 0 : option_whole("--file", file, 1, ALL_FILES);
    load(&store, words, plain, format);
    want_good(&store, plain == 2);
    struct source source = {exchange, NULL, &store, store.state.site.unit, store.state.site.day_first, false, 1};
    struct registers registers[ALL_FILES];
    if (!poll_registers(&source, registers))
        return EXIT_TROUBLE;
    bool fine = only == 0 ? write_all(&store, &source, registers)
                          : write_records(stdout, &source, file_of(&store, only), registers[only - 1]).fine;
    finish_output();
    return fine ? EXIT_FINE : EXIT_TROUBLE;
}
