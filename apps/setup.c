#include "setup.h"

#include <stdlib.h>
#include <string.h>

#include "calendar.h"
#include "report.h"
#include "words.h"

void setup_refused(const char *what, uint32_t number)
{
    char text[CARD_TEXT];
    give_up("%s is refused: %s", what, card_text(text, number));
}

/* Refused for a line of the settings. */
static void want_done(const struct settings *settings, int line, const char *what, uint32_t number)
{
    char text[CARD_TEXT];
    if (number != WINDROW_DONE)
        give_up("%s:%d: %s is refused: %s", settings->path, line, what, card_text(text, number));
}

static void make_change(struct store *store, const struct settings *settings, const struct change *change)
{
    if (change->what == SET_TRIGGER)
        want_done(settings, change->line, "this trigger",
                  windrow_trigger(&store->state, store->archive, store->archive_length, change->index, change->point));
    else
        want_done(settings, change->line, "this alarm",
                  windrow_alarm(&store->state, store->archive, store->archive_length, change->index, change->point, change->type,
                                change->transducer));
}

/* Those at a date are tried out on a state that is thrown away, so that a bad one is told now and not in the midst of a season. */
static void make_changes_at_once(struct store *store, const struct settings *settings)
{
    struct store trial = *store;
    for (size_t i = 0; i < settings->change_count; i++)
        make_change(settings->changes[i].timed ? &trial : store, settings, &settings->changes[i]);
}

/* Triggers and alarms that were set before and are not in the settings any more are off. */
static void forget_changes(struct store *store)
{
    uint32_t number = WINDROW_DONE;
    for (uint32_t file = 1; file <= WINDROW_FILES && number == WINDROW_DONE; file++)
        number = windrow_trigger(&store->state, store->archive, store->archive_length, file, 0);
    for (uint32_t slot = 1; slot <= WINDROW_ALARM_SLOTS && number == WINDROW_DONE; slot++)
        number = windrow_alarm(&store->state, store->archive, store->archive_length, slot, 0, 0, 0);
    if (number != WINDROW_DONE)
        setup_refused("an empty trigger or slot", number);
}

/* What the files, whose groups are good, and the alarm file take of the archive. */
static size_t bytes_needed(const struct settings *settings)
{
    size_t bytes = WINDROW_LEAST_ARCHIVE(settings->firmware);
    for (int i = 0; i < WINDROW_FILES; i++)
        bytes += settings->limits[i] * windrow_record_bytes(settings->groups[i]);
    return bytes;
}

/* Unlocked, every file's draft replaced, started: the files are empty then. */
static void lay_out(struct store *store, const struct settings *settings)
{
    struct windrow_state *state = &store->state;
    uint32_t number = windrow_unlock(state, store->archive, store->archive_length);
    if (number != WINDROW_DONE)
        setup_refused("unlock", number);
    for (uint32_t file = 1; file <= WINDROW_FILES; file++) {
        uint32_t bad_place;
        number = windrow_define(state, store->archive, store->archive_length, file, settings->groups[file - 1],
                                settings->limits[file - 1], &bad_place);
        if (number == WINDROW_GROUP)
            give_up("%s:%d: group %lu of file %lu is refused: it is not within one row of the live table (7 Group)", settings->path,
                    settings->lines[file - 1], (unsigned long)bad_place, (unsigned long)file);
        want_done(settings, settings->lines[file - 1], "this file", number);
    }
    number = windrow_start(state, store->archive, store->archive_length);
    if (number == WINDROW_ROOM)
        give_up("%s: the files do not fit the archive of %zu bytes: with the alarm file they need %zu (11 Room)", settings->path,
                store->archive_length, bytes_needed(settings));
    if (number != WINDROW_DONE)
        setup_refused("start", number);
}

/* Fresh judges the firmware before the memory: over none at all a good one gets as far as Memory (1). */
void setup_judge_firmware(uint32_t firmware, const char *by)
{
    struct windrow_state state;
    uint8_t none;
    if (windrow_fresh(&state, false, WINDROW_LEAST_UNIT, firmware, &none, 0) == WINDROW_FOREIGN)
        give_up("%s: firmware %lu is refused: it is neither 73 nor 74 (2 Foreign)", by, (unsigned long)firmware);
}

void setup_fresh(struct store *store, const struct settings *settings)
{
    setup_judge_firmware(settings->firmware, settings->firmware_by);
    store->archive_length = settings->archive_length;
    store->archive = malloc(store->archive_length + 1);
    store->scans = 0;
    if (store->archive == NULL)
        give_up("there is no memory for an archive of %zu bytes", store->archive_length);
    uint32_t number = windrow_fresh(&store->state, settings->day_first, settings->unit, settings->firmware, store->archive,
                                    store->archive_length);
    int least = WINDROW_LEAST_ARCHIVE(settings->firmware);
    if (number == WINDROW_MEMORY)
        give_up("%s: an archive of %zu bytes is refused: it is not of %d,%03d to 1,048,576, as firmware %lu needs it (1 Memory)",
                settings->path, settings->archive_length, least / 1000, least % 1000, (unsigned long)settings->firmware);
    if (number == WINDROW_FOREIGN)
        give_up("%s: unit %lu is refused: it is not 1-247 (2 Foreign)", settings->path, (unsigned long)settings->unit);
    if (number != WINDROW_DONE)
        setup_refused("fresh", number);
    make_changes_at_once(store, settings);
    lay_out(store, settings);
}

/* The first file that the settings define otherwise than it is laid out, or 0. */
static uint32_t first_difference(const struct store *store, const struct settings *settings)
{
    const struct windrow_definitions *layout = &store->state.files.layout;
    for (uint32_t i = 0; i < WINDROW_FILES; i++)
        if (layout->limits[i] != settings->limits[i]
            || memcmp(&layout->groups[WINDROW_GROUP_NUMBERS * i], settings->groups[i], sizeof settings->groups[i]) != 0)
            return i + 1;
    return 0;
}

/* What fresh has fixed must be the settings'. */
static void want_same_site(const struct store *store, const struct settings *settings, const char *path)
{
    const struct windrow_site *site = &store->state.site;
    if (site->firmware != settings->firmware)
        give_up("the store %s is of a gateway with firmware %u, which can't be changed, and %s is for one with %lu: go on with"
                " --firmware %u, or name another --store for a new gateway",
                path, site->firmware, settings->firmware_by, (unsigned long)settings->firmware, site->firmware);
    if (site->unit != settings->unit || site->day_first != settings->day_first || store->archive_length != settings->archive_length)
        give_up("the store %s is of a gateway with unit %u, %s dates and %zu bytes of archive; %s says otherwise, and these can't"
                " be changed",
                path, site->unit, site->day_first ? "day-first" : "month-first", store->archive_length, settings->path);
}

void setup_again(struct store *store, const struct settings *settings, const char *path, bool redefine)
{
    uint32_t number = windrow_stop(&store->state, store->archive, store->archive_length);
    char text[CARD_TEXT];
    if (number != WINDROW_DONE)
        give_up("the store %s is refused: %s (windrow-dump %s says more)", path, card_text(text, number), path);
    want_same_site(store, settings, path);
    forget_changes(store);
    make_changes_at_once(store, settings);
    uint32_t other = first_difference(store, settings);
    if (other != 0 && !redefine)
        give_up("%s defines file %lu otherwise than the store %s has it; --redefine lays it out anew, which empties every file",
                settings->path, (unsigned long)other, path);
    if (store->state.flags.pending && !redefine)
        give_up("the store %s has a start pending, which empties every file; --redefine does that", path);
    if (other != 0 || store->state.flags.pending) {
        lay_out(store, settings);
        return;
    }
    number = windrow_start(&store->state, store->archive, store->archive_length); /* nothing is pending: it empties nothing */
    if (number != WINDROW_DONE)
        setup_refused("start", number);
}

/* Whether the library takes a scan of this stamp, asked of a stopped copy, which writes nothing into the archive. */
static bool is_taken(const struct store *store, struct windrow_stamp stamp)
{
    static const uint8_t table[WINDROW_TABLE_BYTES];
    struct windrow_state stopped = store->state;
    return windrow_stop(&stopped, store->archive, store->archive_length) == WINDROW_DONE
           && windrow_scan(&stopped, store->archive, store->archive_length, table, sizeof table, stamp) == WINDROW_DONE;
}

size_t setup_timed(struct store *store, const struct settings *settings, size_t next, struct windrow_stamp now)
{
    if (!is_taken(store, now))
        return next;
    for (; next < settings->change_count; next++) {
        const struct change *change = &settings->changes[next];
        if (!change->timed)
            continue;
        if (calendar_seconds(change->at) > calendar_seconds(now))
            break;
        make_change(store, settings, change);
    }
    return next;
}
