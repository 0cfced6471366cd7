#include "foreign.h"

#include <stdarg.h>
#include <stdbool.h>
#include <string.h>

#include "report.h"

/* What is looked at, and what has been found. */
struct search {
    FILE *out;
    const struct windrow_state *state;
    const uint8_t *archive;
    size_t archive_length;
    uint16_t firmwares[2]; /* by which layout, pointers and requested numbers are judged: its own, or, where that is none, both */
    int found;
};

/* Writes a clause where it is broken, and answers whether it is. */
__attribute__((format(printf, 3, 4))) static bool clause(struct search *search, bool broken, const char *format, ...)
{
    if (!broken)
        return false;
    va_list arguments;
    va_start(arguments, format);
    fputs("  ", search->out);
    vfprintf(search->out, format, arguments);
    fputc('\n', search->out);
    va_end(arguments);
    search->found++;
    return true;
}

/* What a state with no files of its own needs, of either firmware. */
static uint8_t least_archive[WINDROW_LEAST_ARCHIVE(WINDROW_FIRMWARE_74)];

static struct windrow_state good_state(void)
{
    struct windrow_state state;
    if (windrow_fresh(&state, false, WINDROW_LEAST_UNIT, WINDROW_FIRMWARE_74, least_archive, sizeof least_archive) != WINDROW_DONE)
        give_up("a fresh gateway is refused: headers and library do not belong together");
    return state;
}

/* Whether the library calls a state Foreign; Lock asks for nothing but a good state. */
static bool is_foreign(struct windrow_state state)
{
    return windrow_lock(&state, least_archive, sizeof least_archive) == WINDROW_FOREIGN;
}

/* Where the firmware is none, what depends on it is told only if neither would do. */
static void look_at_firmware(struct search *search)
{
    struct windrow_state good = good_state();
    uint16_t firmware = search->state->site.firmware;
    good.site.firmware = firmware;
    bool bad = clause(search, is_foreign(good), "firmware %u is neither 73 nor 74", firmware);
    search->firmwares[0] = bad ? WINDROW_FIRMWARE_73 : firmware;
    search->firmwares[1] = bad ? WINDROW_FIRMWARE_74 : firmware;
}

static void look_at_unit_and_flags(struct search *search)
{
    struct windrow_state good = good_state();
    good.site.unit = search->state->site.unit;
    clause(search, is_foreign(good), "unit %u is not 1-247", search->state->site.unit);
    good = good_state();
    good.flags = search->state->flags;
    clause(search, is_foreign(good), "running and unlocked are both on");
}

/* A definition is judged as a draft, where no memory is looked at. */
static bool look_at_definition(struct search *search, const struct windrow_definitions *definitions, const char *which, int index)
{
    struct windrow_state good = good_state();
    memcpy(good.settings.draft.groups, &definitions->groups[WINDROW_GROUP_NUMBERS * index],
           WINDROW_GROUP_NUMBERS * sizeof definitions->groups[0]);
    return clause(search, is_foreign(good), "file %d's %s groups are against the rule (a bad group, or a record over 250 bytes)",
                  index + 1, which);
}

/* Answers whether every laid-out definition is good. */
static bool look_at_definitions(struct search *search)
{
    bool good = true;
    for (int i = 0; i < WINDROW_FILES; i++) {
        if (look_at_definition(search, &search->state->files.layout, "laid-out", i))
            good = false;
        look_at_definition(search, &search->state->settings.draft, "drafted", i);
    }
    return good;
}

static void look_at_triggers_and_slots(struct search *search)
{
    const struct windrow_settings *settings = &search->state->settings;
    for (int i = 0; i < WINDROW_FILES; i++) {
        struct windrow_state good = good_state();
        good.settings.triggers[i] = settings->triggers[i];
        clause(search, is_foreign(good), "file %d's trigger %u is neither 0 nor a flag", i + 1, settings->triggers[i]);
    }
    for (int i = 0; i < WINDROW_ALARM_SLOTS; i++) {
        struct windrow_state good = good_state();
        struct windrow_slot slot = settings->slots[i];
        good.settings.slots[i] = slot;
        clause(search, is_foreign(good), "slot %d is against the rule: point %u, type %u, transducer %u", i + 1, slot.point,
               slot.type, slot.transducer);
    }
}

/* A good state with the searched one's layout, over the archive that was lent with it. */
static struct windrow_state laid_out(const struct search *search)
{
    struct windrow_state good = good_state();
    good.files.layout = search->state->files.layout;
    good.site.archive_length = (uint32_t)search->archive_length;
    return good;
}

/* The same for a state that is laid out so, by each firmware that the searched one may be of. */
static bool is_foreign_laid_out(const struct search *search, struct windrow_state state)
{
    for (int i = 0; i < 2; i++) {
        state.site.firmware = search->firmwares[i];
        if (windrow_lock(&state, search->archive, search->archive_length) != WINDROW_FOREIGN)
            return false;
    }
    return true;
}

/* With a good layout that fits: whether a pointer or a requested number is over its file's n. */
static void look_at_numbers(struct search *search)
{
    for (int i = 0; i < WINDROW_ALARM_FILE; i++) {
        uint16_t pointer = search->state->files.pointers[i], requested = search->state->line.requested[i];
        struct windrow_state good = laid_out(search);
        good.files.pointers[i] = pointer;
        clause(search, is_foreign_laid_out(search, good), "file %d's pointer %u is over its n", i + 1, pointer);
        good = laid_out(search);
        good.line.requested[i] = requested;
        clause(search, is_foreign_laid_out(search, good), "file %d's requested number %u is over its n", i + 1, requested);
    }
}

int tell_clauses(FILE *out, const struct windrow_state *state, const uint8_t *archive, size_t archive_length)
{
    struct search search = {out, state, archive, archive_length, {0, 0}, 0};
    look_at_unit_and_flags(&search);
    look_at_firmware(&search);
    bool good_layout = look_at_definitions(&search);
    look_at_triggers_and_slots(&search);
    if (good_layout
        && !clause(&search, is_foreign_laid_out(&search, laid_out(&search)),
                   "the laid-out files do not fit the archive of %zu bytes", archive_length))
        look_at_numbers(&search);
    return search.found;
}
