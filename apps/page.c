/* windrow-page: a season of two windrows as one page to look at and to print, out of the CSV files that windrow-read wrote. */
#include <errno.h>
#include <math.h>
#include <stdbool.h>
#include <stdio.h>
#include <stdlib.h>
#include <string.h>
#include <sys/stat.h>
#include <unistd.h>

#include "calendar.h"
#include "chart.h"
#include "csv.h"
#include "csvfile.h"
#include "options.h"
#include "report.h"

static const char help[] =
    "windrow-page OUT.html NORTH.csv SOUTH.csv NORTH_TURNS.csv SOUTH_TURNS.csv ALARMS.csv: draws a season of two windrows\n"
    "\n"
    "The CSV files are those that windrow-read wrote, each with its heading, by which the columns are found:\n"
    "  NORTH.csv         stamp, 7101 (core), 7102 (edge), 7105 (air)\n"
    "  SOUTH.csv         stamp, 7103 (core), 7104 (edge), 7105 (air)\n"
    "  NORTH_TURNS.csv   stamp of each turning; 14001, if there, says why, and 14003 who turned. The first eight texts\n"
    "                    of each are counted one by one, as they were filed, and the others together\n"
    "  SOUTH_TURNS.csv   the same; 14002 and 14004\n"
    "  ALARMS.csv        stamp, point, type, bit: 1805 and 1806 too hot, 1807 and 1808 short of air, north and south. Only\n"
    "                    types 0 and 2 tell when an alarm was cleared, and so only they are taken. Of the last five scans\n"
    "                    that cleared alarms and raised others, every row is listed as it lies in the file; there 1811 and\n"
    "                    1812, without the fan, have a name too. Rows behind each other with one stamp are one scan.\n"
    "Where 5102 (litres), 5103 and 5104 (passes) are in one of the first four files, their last value stands in the table.\n"
    "\n"
    "  --help            this page\n"
    "\n"
    "OUT.html needs no other file and no network. It is put in place when it is whole. The exit status is 0 where it is, 1\n"
    "where a file is missing or none of these, and 2 for a wrong command line.\n";

static const char style[] =
    "body{font:16px/1.45 Helvetica,Arial,\"Liberation Sans\",sans-serif;color:#000;background:#fff;max-width:1000px;"
    "margin:24px auto;padding:0 16px}\n"
    "h1{font-size:26px;margin:0 0 2px}h2{font-size:19px;margin:18px 0 4px}p{margin:4px 0 12px}\n"
    "svg{display:block;width:100%;height:auto}svg text{font-size:15px;fill:#000}\n"
    "svg text.heading{font-size:17px;font-weight:bold}\n"
    "svg path{fill:none}.core{stroke:#8c1a10;stroke-width:2.4}.edge{stroke:#124a8c;stroke-width:1.7;stroke-dasharray:7 4}\n"
    ".air{stroke:#666;stroke-width:0.9}.limit{stroke:#000;stroke-width:1.3;stroke-dasharray:1.5 4}\n"
    ".turning{stroke:#000;stroke-width:1;stroke-dasharray:4 3}svg path.mark{fill:#000}\n"
    ".grid{stroke:#ddd;stroke-width:1}.axis,.frame,.lane{stroke:#000;stroke-width:1;fill:none}\n"
    ".hot{fill:#8c1a10}.airless{fill:url(#hatch);stroke:#124a8c;stroke-width:1}\n"
    "table{border-collapse:collapse;margin:4px 0 12px}th,td{border:1px solid #777;padding:4px 12px;text-align:right;"
    "vertical-align:top}\n"
    "td[colspan]{text-align:center}tbody th{font-weight:normal;text-align:left}thead th{text-align:center}\n"
    ".order td{text-align:left;padding:2px 12px}.order tbody{border-top:2px solid #000}\n"
    ".answer{font-size:17px}\n"
    "@page{size:A4 portrait;margin:12mm}\n"
    "@media print{body{margin:0;padding:0;max-width:none;font-size:10.5pt;line-height:1.3}h1{font-size:17pt}h2{font-size:12.5pt;"
    "margin:10px 0 2px}.answer{font-size:11pt}svg,table,.answer,.order{break-inside:avoid}"
    "*{-webkit-print-color-adjust:exact;print-color-adjust:exact}}\n";

/* What stands below the chart about a windrow. */
struct sum {
    double hot_hours, airless_hours;
    double highest;                  /* of the core, degrees */
    double above_air;                /* the core, in the mean of the last week */
    double passes;                   /* NaN where it is not in the files */
};

#define LAST_WEEK (7 * 86400)
#define MOST_TEXTS 8 /* that are counted one by one */
#define MOST_SCANS 5 /* whose alarms are listed, lest the page grows with the season */

/* What a windrow's records of turnings say in a text, why or by whom, and how often each. */
struct tally {
    char texts[MOST_TEXTS][CELL_BYTES];
    size_t counts[MOST_TEXTS];
    size_t count;
    size_t others; /* turnings with another text than these */
};

/* A record of the alarm file. */
struct alarm {
    int64_t at;
    const char *point, *type;
    bool tells_clearing; /* its type logs any change, and not a rise only */
    bool raised;
};

struct season {
    struct csv_file files[5]; /* in the order of the command line */
    struct alarm *alarms;     /* as they lie in the file */
    size_t alarm_count;
    struct windrow windrows[WINDROWS];
    struct sum sums[WINDROWS];
    struct tally reasons[WINDROWS], drivers[WINDROWS];
    double litres; /* NaN where it is not in the files */
    int64_t from, to;
};

enum { NORTH, SOUTH, NORTH_TURNS, SOUTH_TURNS, ALARMS };

/* The points of each windrow. */
static const struct {
    const char *core, *edge, *reason, *driver, *passes, *hot, *airless;
} points[WINDROWS] = {{"7101", "7102", "14001", "14003", "5103", "1805", "1807"},
                      {"7103", "7104", "14002", "14004", "5104", "1806", "1808"}};

/* What the alarms of the simulated yard are called. */
static const struct {
    const char *point, *name;
} alarm_names[] = {{"1805", "north too hot"},      {"1806", "south too hot"},         {"1807", "north short of air"},
                   {"1808", "south short of air"}, {"1811", "north without the fan"}, {"1812", "south without the fan"}};

static size_t need_column(const struct csv_file *file, const char *heading, const char *what)
{
    size_t column = csv_column(file, heading);
    if (column == NO_COLUMN)
        give_up("%s has no column `%s`: it is not %s", file->path, heading, what);
    return column;
}

/* Every row must be as wide as the heading: then any column may be looked up in any row. */
static void judge_rows(const struct csv_file *file)
{
    for (size_t i = 0; i < file->count; i++)
        if (file->rows[i].count != file->heading.count)
            give_up("%s: row %zu has %zu cells, and its heading has %zu", file->path, i + 1, file->rows[i].count,
                    file->heading.count);
}

static double number_at(const struct csv_file *file, size_t row, size_t column)
{
    const char *cell = file->rows[row].cells[column];
    char *end;
    double number = strtod(cell, &end);
    if (end == cell || *end != 0)
        give_up("%s: row %zu, column %s: `%s` is no number", file->path, row + 1, file->heading.cells[column], cell);
    return number;
}

static int64_t time_at(const struct csv_file *file, size_t row, size_t column)
{
    struct windrow_stamp stamp;
    const char *cell = file->rows[row].cells[column];
    if (!calendar_parse(cell, &stamp))
        give_up("%s: row %zu: `%s` is no date", file->path, row + 1, cell);
    return calendar_seconds(stamp);
}

/* The counter's value in the last rows, the highest of all the files that have it; NaN where none has. */
static double last_count(const struct season *season, const char *heading)
{
    double highest = NAN;
    for (size_t i = NORTH; i <= SOUTH_TURNS; i++) {
        const struct csv_file *file = &season->files[i];
        size_t column = csv_column(file, heading);
        if (column != NO_COLUMN && file->count > 0)
            highest = fmax(highest, number_at(file, file->count - 1, column)); /* fmax passes a NaN over */
    }
    return highest;
}

static void take_readings(struct season *season, size_t which)
{
    const struct csv_file *file = &season->files[which];
    struct windrow *windrow = &season->windrows[which];
    const char *what = which == NORTH ? "a file of north's readings" : "a file of south's readings";
    size_t stamp = need_column(file, "stamp", what), core = need_column(file, points[which].core, what);
    size_t edge = need_column(file, points[which].edge, what), air = need_column(file, "7105", what);
    if (file->count == 0)
        give_up("%s has no rows: there is nothing to draw", file->path);
    windrow->readings = memory_for(file->count, sizeof *windrow->readings);
    windrow->reading_count = file->count;
    for (size_t i = 0; i < file->count; i++) {
        struct reading reading = {time_at(file, i, stamp), number_at(file, i, core), number_at(file, i, edge),
                                  number_at(file, i, air)};
        windrow->readings[i] = reading;
        if ((which == NORTH && i == 0) || reading.at < season->from)
            season->from = reading.at;
        if ((which == NORTH && i == 0) || reading.at > season->to)
            season->to = reading.at;
    }
}

/* A text cell without its quotes. */
static void plain_text(char text[CELL_BYTES], const char *cell)
{
    size_t length = 0;
    bool quoted = *cell == '"';
    for (cell += quoted; *cell != 0 && length + 1 < CELL_BYTES; cell++) {
        if (quoted && *cell == '"' && *++cell != '"')
            break;
        text[length++] = *cell;
    }
    text[length] = 0;
}

static void count_text(struct tally *tally, const char *cell)
{
    char text[CELL_BYTES];
    plain_text(text, cell);
    for (size_t i = 0; i < tally->count; i++) {
        if (strcmp(tally->texts[i], text) == 0) {
            tally->counts[i]++;
            return;
        }
    }
    if (tally->count == MOST_TEXTS) {
        tally->others++;
        return;
    }
    strcpy(tally->texts[tally->count], text);
    tally->counts[tally->count++] = 1;
}

/* The texts of a column; none where the file does not have it. */
static void take_texts(struct tally *tally, const struct csv_file *file, const char *heading)
{
    size_t column = csv_column(file, heading);
    for (size_t i = 0; column != NO_COLUMN && i < file->count; i++)
        count_text(tally, file->rows[i].cells[column]);
}

static void take_turnings(struct season *season, size_t which)
{
    const struct csv_file *file = &season->files[NORTH_TURNS + which];
    struct windrow *windrow = &season->windrows[which];
    size_t stamp = need_column(file, "stamp", "a file of turnings");
    windrow->turnings = memory_for(file->count, sizeof *windrow->turnings);
    windrow->turning_count = file->count;
    for (size_t i = 0; i < file->count; i++)
        windrow->turnings[i] = time_at(file, i, stamp);
    take_texts(&season->reasons[which], file, points[which].reason);
    take_texts(&season->drivers[which], file, points[which].driver);
}

static void take_alarms(struct season *season)
{
    const struct csv_file *file = &season->files[ALARMS];
    size_t stamp = need_column(file, "stamp", "an alarm file"), point = need_column(file, "point", "an alarm file");
    size_t type = need_column(file, "type", "an alarm file"), bit = need_column(file, "bit", "an alarm file");
    season->alarms = memory_for(file->count, sizeof *season->alarms);
    season->alarm_count = file->count;
    for (size_t i = 0; i < file->count; i++) {
        char *const *cells = file->rows[i].cells;
        double logs = number_at(file, i, type);
        struct alarm alarm = {time_at(file, i, stamp), cells[point], cells[type], logs == 0 || logs == 2,
                              number_at(file, i, bit) != 0};
        season->alarms[i] = alarm;
    }
}

/* The alarms of a point, each pair of raised and cleared as a spell; one that was never cleared lasts to the end. */
static void take_spells(const struct season *season, struct spells *spells, const char *point)
{
    bool raised = false;
    spells->list = memory_for(season->alarm_count, sizeof *spells->list);
    for (size_t i = 0; i < season->alarm_count; i++) {
        const struct alarm *alarm = &season->alarms[i];
        if (strcmp(alarm->point, point) != 0 || !alarm->tells_clearing)
            continue;
        if (!raised && !alarm->raised && spells->count > 0)
            continue; /* another slot's row of the same change */
        if (!raised) {
            /* cleared first: it was raised before the season */
            struct spell spell = {alarm->raised ? alarm->at : season->from, season->to};
            spells->list[spells->count++] = spell;
        }
        if (!alarm->raised)
            spells->list[spells->count - 1].to = alarm->at;
        raised = alarm->raised;
    }
}

static double hours_of(const struct spells *spells)
{
    int64_t seconds = 0;
    for (size_t i = 0; i < spells->count; i++)
        seconds += spells->list[i].to - spells->list[i].from;
    return (double)seconds / 3600;
}

static void sum_up(struct season *season, size_t which)
{
    const struct windrow *windrow = &season->windrows[which];
    double above = 0;
    size_t count = 0;
    struct sum sum = {hours_of(&windrow->hot), hours_of(&windrow->airless), NAN, NAN, last_count(season, points[which].passes)};
    for (size_t i = 0; i < windrow->reading_count; i++) {
        const struct reading *reading = &windrow->readings[i];
        sum.highest = fmax(sum.highest, reading->core);
        if (reading->at < season->to - LAST_WEEK || !isfinite(reading->core - reading->air))
            continue;
        above += reading->core - reading->air;
        count++;
    }
    if (count > 0)
        sum.above_air = above / (double)count;
    season->sums[which] = sum;
}

static void read_season(struct season *season, char **paths)
{
    for (size_t i = NORTH; i <= ALARMS; i++) {
        csv_read(&season->files[i], paths[i]);
        judge_rows(&season->files[i]);
    }
    for (size_t i = 0; i < WINDROWS; i++) {
        take_readings(season, i);
        take_turnings(season, i);
    }
    if (season->from >= season->to)
        give_up("%s and %s are of one moment: there is no season to draw", season->files[NORTH].path, season->files[SOUTH].path);
    take_alarms(season);
    for (size_t i = 0; i < WINDROWS; i++) {
        take_spells(season, &season->windrows[i].hot, points[i].hot);
        take_spells(season, &season->windrows[i].airless, points[i].airless);
        sum_up(season, i);
    }
    season->litres = last_count(season, "5102");
}

static void write_text(FILE *page, const char *text)
{
    for (; *text != 0; text++) {
        switch (*text) {
        case '&': fputs("&amp;", page); break;
        case '<': fputs("&lt;", page); break;
        case '>': fputs("&gt;", page); break;
        default: fputc(*text, page);
        }
    }
}

/* A row of numbers; one that is not known is a dash. */
static void write_row(FILE *page, const char *name, const char *format, double north, double south)
{
    const double numbers[WINDROWS] = {north, south};
    fprintf(page, "<tr><th scope=\"row\">%s</th>", name);
    for (size_t i = 0; i < WINDROWS; i++) {
        fputs("<td>", page);
        if (isnan(numbers[i]))
            fputs("–", page);
        else
            fprintf(page, format, numbers[i]);
        fputs("</td>", page);
    }
    fputs("</tr>\n", page);
}

/* A row of texts and how often each was filed; none where neither windrow has any. */
static void write_tallies(FILE *page, const char *name, const struct tally tallies[WINDROWS])
{
    if (tallies[NORTH].count + tallies[SOUTH].count == 0)
        return;
    fprintf(page, "<tr><th scope=\"row\">%s</th>", name);
    for (size_t i = 0; i < WINDROWS; i++) {
        const struct tally *tally = &tallies[i];
        fputs("<td>", page);
        for (size_t j = 0; j < tally->count; j++) {
            fputs(j > 0 ? "<br>" : "", page);
            if (tally->texts[j][0] == 0)
                fputs("<i>none given</i>", page); /* slanted, lest it passes for a text that was filed */
            else
                write_text(page, tally->texts[j]);
            fprintf(page, ": %zu", tally->counts[j]);
        }
        if (tally->others > 0)
            fprintf(page, "<br><i>others</i>: %zu", tally->others);
        fputs(tally->count == 0 ? "–</td>" : "</td>", page);
    }
    fputs("</tr>\n", page);
}

/* Whether one of the texts that are shown has a byte as \xHH. */
static bool has_escapes(const struct tally tallies[WINDROWS])
{
    for (size_t i = 0; i < WINDROWS; i++)
        for (size_t j = 0; j < tallies[i].count; j++)
            if (strstr(tallies[i].texts[j], "\\x") != NULL)
                return true;
    return false;
}

static void write_table(FILE *page, const struct season *season)
{
    const struct sum *north = &season->sums[NORTH], *south = &season->sums[SOUTH];
    fputs("<table>\n<thead><tr><td></td><th scope=\"col\">North, by the probe</th>"
          "<th scope=\"col\">South, by the calendar</th></tr></thead>\n<tbody>\n",
          page);
    write_row(page, "Turnings", "%.0f", (double)season->windrows[NORTH].turning_count,
              (double)season->windrows[SOUTH].turning_count);
    write_tallies(page, "Reasons for turning", season->reasons);
    write_tallies(page, "Turned by, as filed: since 2.2 with ? for each byte typed that is neither 00 nor 20 to 7E hex",
                  season->drivers);
    write_row(page, "Too hot: raised over 70 °C, until cleared", "%.1f h", north->hot_hours, south->hot_hours);
    write_row(page, "Short of air, until cleared", "%.1f h", north->airless_hours, south->airless_hours);
    write_row(page, "Highest core temperature", "%.1f °C", north->highest, south->highest);
    write_row(page, "Core above the air, mean of the last week", "%.1f °C", north->above_air, south->above_air);
    if (!isnan(north->passes) || !isnan(south->passes))
        write_row(page, "Turner passes at the end", "%.0f", north->passes, south->passes);
    if (!isnan(season->litres))
        fprintf(page, "<tr><th scope=\"row\">Water at the end, both windrows</th><td colspan=\"2\">%.0f litres</td></tr>\n",
                season->litres);
    fputs("</tbody>\n</table>\n", page);
    if (has_escapes(season->reasons) || has_escapes(season->drivers))
        fputs("<p>Where a text has \\xHH in it, a gateway before 2.2 has filed this byte as it was typed, or it is a backslash "
              "(\\x5C) or 00, which are written so too.</p>\n",
              page);
}

/* The scan whose alarms begin at `first` ends before this one: its records lie behind each other and have one stamp. */
static size_t end_of_scan(const struct season *season, size_t first)
{
    size_t end = first + 1;
    while (end < season->alarm_count && season->alarms[end].at == season->alarms[first].at)
        end++;
    return end;
}

/* Whether a scan both cleared and raised alarms. */
static bool is_mixed(const struct season *season, size_t first)
{
    size_t count = end_of_scan(season, first) - first, raised = 0;
    for (size_t i = 0; i < count; i++)
        raised += season->alarms[first + i].raised;
    return 0 < raised && raised < count;
}

static const char *alarm_name(const char *point)
{
    for (size_t i = 0; i < sizeof alarm_names / sizeof alarm_names[0]; i++)
        if (strcmp(alarm_names[i].point, point) == 0)
            return alarm_names[i].name;
    return "";
}

/* A scan's alarms, a row each, as they lie in the file. True where a cleared one lies behind a raised one. */
static bool write_scan(FILE *page, const struct season *season, size_t first)
{
    bool turned = false;
    fputs("<tbody>\n", page);
    for (size_t i = first; i < end_of_scan(season, first); i++) {
        const struct alarm *alarm = &season->alarms[i];
        char when[LONG_DATE_TEXT];
        date_and_time_text(when, alarm->at);
        fprintf(page, "<tr><td>%s</td><td>", when);
        write_text(page, alarm->point);
        fprintf(page, " %s</td><td>", alarm_name(alarm->point));
        write_text(page, alarm->type);
        fprintf(page, "</td><td>%s</td></tr>\n", alarm->raised ? "<b>raised</b>" : "cleared");
        turned = turned || (i > first && alarm[-1].raised && !alarm->raised);
    }
    fputs("</tbody>\n", page);
    return turned;
}

/* The order of one scan's alarms, shown by the last scans that have one. */
static void write_order(FILE *page, const struct season *season)
{
    size_t mixed = 0;
    bool turned = false;
    for (size_t first = 0; first < season->alarm_count; first = end_of_scan(season, first))
        mixed += is_mixed(season, first);
    if (mixed == 0)
        return;
    fputs("<section class=\"order\">\n<h2>Cleared before raised</h2>\n"
          "<p>Of one scan the gateway files first the alarms that were cleared, then those that were raised: where a scan raised "
          "any, the newest record is one of these. The last scans that did both, as they lie in the alarm file, the oldest first:</p>\n"
          "<table>\n<thead><tr><th scope=\"col\">Stamp</th><th scope=\"col\">Alarm</th><th scope=\"col\">Type</th>"
          "<th scope=\"col\">Was</th></tr></thead>\n",
          page);
    for (size_t first = 0; first < season->alarm_count; first = end_of_scan(season, first))
        if (is_mixed(season, first) && mixed-- <= MOST_SCANS)
            turned |= write_scan(page, season, first);
    fputs("</table>\n", page);
    if (turned)
        fputs("<p>Where a cleared alarm stands behind a raised one, a gateway before 2.1 has filed them, or two scans had one "
              "stamp.</p>\n",
              page);
    fputs("</section>\n", page);
}

/* 1 where north had less of a trouble, -1 where it had more. */
static int sign_of(double north, double south)
{
    return (north < south) - (north > south);
}

/* True where neither turning nor want of air has cooled a windrow in the last week. */
static bool was_left_alone(const struct season *season, size_t which)
{
    const struct windrow *windrow = &season->windrows[which];
    int64_t since = season->to - LAST_WEEK;
    for (size_t i = 0; i < windrow->turning_count; i++)
        if (windrow->turnings[i] >= since)
            return false;
    for (size_t i = 0; i < windrow->airless.count; i++)
        if (windrow->airless.list[i].to >= since)
            return false;
    return true;
}

/* Which windrow has rotted further: the one that heats less, if it is not something else that keeps it cool. */
static void write_ripeness(FILE *page, const struct season *season)
{
    static const char *const names[WINDROWS] = {"north", "south"};
    double north = season->sums[NORTH].above_air, south = season->sums[SOUTH].above_air;
    size_t cooler = north < south ? NORTH : SOUTH;
    if (!(fabs(north - south) >= 1) || season->from > season->to - 2 * LAST_WEEK || !was_left_alone(season, cooler))
        return;
    fprintf(page, "; and in the last week, unturned and with air enough, %s's core was %.0f °C above the air, %s's %.0f °C,"
                  " so there is less left to rot in %s",
            names[cooler], fmin(north, south), names[1 - cooler], fmax(north, south), names[cooler]);
}

/* The question that both windrows were set up for, answered by the hours of trouble. */
static void write_answer(FILE *page, const struct season *season)
{
    const struct sum *north = &season->sums[NORTH], *south = &season->sums[SOUTH];
    int better = sign_of(north->hot_hours, south->hot_hours) + sign_of(north->airless_hours, south->airless_hours);
    size_t north_turnings = season->windrows[NORTH].turning_count, south_turnings = season->windrows[SOUTH].turning_count;
    const char *verdict = better > 0   ? "<b>Yes.</b> Turning by the probe beat turning by the calendar"
                          : better < 0 ? "<b>No.</b> Turning by the calendar beat turning by the probe"
                                       : "<b>Not clearly.</b> Neither way of turning beat the other";
    fprintf(page, "<h2>Does turning by the probe beat turning by the calendar?</h2>\n<p class=\"answer\">%s: "
                  "north was too hot for %.0f hours and short of air for %.0f, south for %.0f and %.0f, "
                  "with %zu turnings of north and %zu of south",
            verdict, north->hot_hours, north->airless_hours, south->hot_hours, south->airless_hours, north_turnings,
            south_turnings);
    write_ripeness(page, season);
    fputs(".</p>\n", page);
}

static void write_page(FILE *page, const struct season *season)
{
    char from[LONG_DATE_TEXT], to[LONG_DATE_TEXT];
    date_and_time_text(from, season->from);
    date_and_time_text(to, season->to);
    fprintf(page, "<!DOCTYPE html>\n<html lang=\"en\">\n<head>\n<meta charset=\"utf-8\">\n"
                  "<title>Two windrows, one season</title>\n<style>\n%s</style>\n</head>\n<body>\n"
                  "<h1>Two windrows, one season</h1>\n",
            style);
    fprintf(page, "<p>%s to %s. %zu readings of north and %zu of south, archived by the gateway and read over Modbus.</p>\n",
            from, to, season->windrows[NORTH].reading_count, season->windrows[SOUTH].reading_count);
    chart_draw(page, season->windrows, season->from, season->to);
    write_answer(page, season);
    write_table(page, season);
    write_order(page, season);
    fputs("</body>\n</html>\n", page);
}

/* Only a page is replaced: renaming onto a device would put a file in its place. */
static void judge_place(const char *path)
{
    struct stat there;
    if (stat(path, &there) == 0 && !S_ISREG(there.st_mode))
        give_up("%s can't be written: it is no regular file", path);
}

/* Writes beside the page and renames, so that a page is there as a whole or not at all. */
static void make_page(const struct season *season, const char *path)
{
    static const char ending[] = ".new";
    char *beside = memory_for(strlen(path) + sizeof ending, 1);
    sprintf(beside, "%s%s", path, ending);
    FILE *page = fopen(beside, "w");
    if (page == NULL)
        give_up("%s can't be written: %s", beside, strerror(errno));
    write_page(page, season);
    bool written = fflush(page) == 0 && !ferror(page) && fsync(fileno(page)) == 0;
    int error = errno;
    if (fclose(page) != 0 && written) {
        written = false;
        error = errno;
    }
    if (written && rename(beside, path) != 0) {
        written = false;
        error = errno;
    }
    if (!written) {
        remove(beside);
        give_up("%s can't be written: %s", path, strerror(error));
    }
    free(beside);
}

static void free_season(struct season *season)
{
    for (size_t i = NORTH; i <= ALARMS; i++)
        csv_free(&season->files[i]);
    free(season->alarms);
    for (size_t i = 0; i < WINDROWS; i++) {
        free(season->windrows[i].readings);
        free(season->windrows[i].turnings);
        free(season->windrows[i].hot.list);
        free(season->windrows[i].airless.list);
    }
}

int main(int count, char **words)
{
    static struct season season;
    static const struct known_option no_options[] = {{NULL, NULL, NULL}};
    static const char *const pages[] = {help, NULL};
    report_as("windrow-page");
    if (options_take(count, words, no_options, pages) != 6)
        misused("a page and five CSV files are needed");
    season.windrows[NORTH].name = "North";
    season.windrows[NORTH].manner = "turned when its probe said so";
    season.windrows[SOUTH].name = "South";
    season.windrows[SOUTH].manner = "turned by the calendar";
    judge_place(words[1]);
    read_season(&season, &words[2]);
    make_page(&season, words[1]);
    free_season(&season);
    return EXIT_FINE;
}
