#include "chart.h"

#include <math.h>
#include <stdbool.h>

#include "calendar.h"

/* Units of the drawing. It is 1000 wide, and printed on a portrait page its letters of 15 are still some 8 points high. */
#define WIDTH 1000
#define LEFT 112
#define RIGHT 930
#define PLOT_HEIGHT 250
#define PLOT_TOP 84 /* north's */
#define LANE_HEIGHT 14
#define LANE_STEP 20
#define LANES_DOWN 10 /* below the plot */
#define PANEL_STEP (PLOT_HEIGHT + 130)
#define HEIGHT (PLOT_TOP + WINDROWS * PANEL_STEP - 48)
#define LABEL_STEP 16 /* between two lines of text at least */
#define NARROWEST_BAR 1.5

/* No windrow is colder or hotter. */
#define COLDEST (-30)
#define HOTTEST 100

#define DAY_SECONDS 86400
#define HOUR_SECONDS 3600
#define MOST_TICKS 13

/* What a place on the paper stands for. */
struct scale {
    int64_t from, to;
    double coldest, hottest;
    double top; /* of the panel that is drawn */
};

/* A line of the chart: each differs from the others in width and dashes, so that it is known without its colour. */
struct style {
    const char *name, *class;
};

static const struct style core_style = {"core", "core"}, edge_style = {"edge", "edge"}, air_style = {"air", "air"};

static double x_of(const struct scale *scale, int64_t at)
{
    double part = (double)(at - scale->from) / (double)(scale->to - scale->from);
    return LEFT + (RIGHT - LEFT) * fmin(fmax(part, 0), 1);
}

static double y_of(const struct scale *scale, double degrees)
{
    double part = (scale->hottest - degrees) / (scale->hottest - scale->coldest);
    return scale->top + PLOT_HEIGHT * fmin(fmax(part, 0), 1);
}

void date_text(char text[DATE_TEXT], int64_t at)
{
    static const char *const months[] = {"Jan", "Feb", "Mar", "Apr", "May", "Jun", "Jul", "Aug", "Sep", "Oct", "Nov", "Dec"};
    struct windrow_stamp stamp = calendar_stamp(at);
    snprintf(text, DATE_TEXT, "%d %s", stamp.day, months[(stamp.month - 1) % 12]);
}

void date_and_time_text(char text[LONG_DATE_TEXT], int64_t at)
{
    char date[DATE_TEXT];
    struct windrow_stamp stamp = calendar_stamp(at);
    date_text(date, at);
    snprintf(text, LONG_DATE_TEXT, "%s %d, %02d:%02d", date, WINDROW_CENTURY + stamp.year, stamp.hour, stamp.minute);
}

/* From one tick to the next: a week, or what comes next to it where the readings are of another span. */
static int64_t tick_step(int64_t span)
{
    static const int64_t steps[] = {HOUR_SECONDS, 3 * HOUR_SECONDS, 6 * HOUR_SECONDS, 12 * HOUR_SECONDS, DAY_SECONDS};
    for (size_t i = 0; i < sizeof steps / sizeof steps[0]; i++)
        if (span / steps[i] < MOST_TICKS)
            return steps[i];
    int64_t step = 7 * DAY_SECONDS;
    while (span / step >= MOST_TICKS)
        step *= 2;
    return step;
}

/* Ticks start at the first midnight, or within a day at the first full hour. */
static int64_t first_tick(int64_t from, int64_t step)
{
    int64_t unit = step < DAY_SECONDS ? HOUR_SECONDS : DAY_SECONDS;
    return from / unit * unit;
}

static void draw_lines_of_time(FILE *page, const struct scale *scale, double bottom)
{
    int64_t step = tick_step(scale->to - scale->from);
    for (int64_t at = first_tick(scale->from, step); at <= scale->to; at += step)
        fprintf(page, "<line class=\"grid\" x1=\"%.1f\" y1=\"%.1f\" x2=\"%.1f\" y2=\"%.1f\"/>\n", x_of(scale, at), scale->top,
                x_of(scale, at), bottom);
}

static void draw_dates(FILE *page, const struct scale *scale, double bottom)
{
    int64_t step = tick_step(scale->to - scale->from);
    for (int64_t at = first_tick(scale->from, step); at <= scale->to; at += step) {
        char text[DATE_TEXT];
        struct windrow_stamp stamp = calendar_stamp(at);
        date_text(text, at);
        fprintf(page, "<line class=\"axis\" x1=\"%.1f\" y1=\"%.1f\" x2=\"%.1f\" y2=\"%.1f\"/>\n", x_of(scale, at), bottom,
                x_of(scale, at), bottom + 6);
        if (step < DAY_SECONDS)
            snprintf(text, sizeof text, "%02d:%02d", stamp.hour, stamp.minute);
        fprintf(page, "<text x=\"%.1f\" y=\"%.1f\" text-anchor=\"middle\">%s</text>\n", x_of(scale, at), bottom + 22, text);
    }
}

static void draw_degrees(FILE *page, const struct scale *scale)
{
    for (double degrees = scale->coldest; degrees <= scale->hottest; degrees += 10) {
        double y = y_of(scale, degrees);
        fprintf(page, "<line class=\"grid\" x1=\"%d\" y1=\"%.1f\" x2=\"%d\" y2=\"%.1f\"/>\n", LEFT, y, RIGHT, y);
        fprintf(page, "<text x=\"%d\" y=\"%.1f\" text-anchor=\"end\">%.0f</text>\n", LEFT - 8, y + 5, degrees);
    }
    fprintf(page, "<text x=\"%d\" y=\"%.1f\" transform=\"rotate(-90 %d %.1f)\" text-anchor=\"middle\">temperature, °C</text>\n",
            LEFT - 48, scale->top + PLOT_HEIGHT / 2.0, LEFT - 48, scale->top + PLOT_HEIGHT / 2.0);
    double limit = y_of(scale, TOO_HOT);
    fprintf(page, "<line class=\"limit\" x1=\"%d\" y1=\"%.1f\" x2=\"%d\" y2=\"%.1f\"/>\n", LEFT, limit, RIGHT, limit);
}

static double value_of(const struct reading *reading, const struct style *style)
{
    return style == &core_style ? reading->core : style == &edge_style ? reading->edge : reading->air;
}

/* A line through the readings, broken where there is none. */
static void draw_line(FILE *page, const struct scale *scale, const struct windrow *windrow, const struct style *style)
{
    bool drawing = false;
    fprintf(page, "<path class=\"%s\" d=\"", style->class);
    for (size_t i = 0; i < windrow->reading_count; i++) {
        double degrees = value_of(&windrow->readings[i], style);
        if (!isfinite(degrees)) {
            drawing = false;
            continue;
        }
        fprintf(page, "%c%.1f %.1f%s", drawing ? 'L' : 'M', x_of(scale, windrow->readings[i].at), y_of(scale, degrees),
                i % 10 == 9 ? "\n" : "");
        drawing = true;
    }
    fprintf(page, "\"/>\n");
}

static double last_value(const struct windrow *windrow, const struct style *style)
{
    for (size_t i = windrow->reading_count; i-- > 0;)
        if (isfinite(value_of(&windrow->readings[i], style)))
            return value_of(&windrow->readings[i], style);
    return NAN;
}

/* Names at the lines' ends, from the lowest up, each far enough above the one before; the line at the limit has one too. */
static void draw_names(FILE *page, const struct scale *scale, const struct windrow *windrow)
{
    const struct style *styles[] = {&air_style, &edge_style, &core_style};
    double y[4], under = INFINITY;
    const char *names[4];
    int count = 0;
    for (int i = 0; i < 3; i++) {
        double degrees = last_value(windrow, styles[i]);
        if (isfinite(degrees)) {
            names[count] = styles[i]->name;
            y[count++] = y_of(scale, degrees) + 5;
        }
    }
    names[count] = "too hot";
    y[count++] = y_of(scale, TOO_HOT) + 5;
    for (int i = 0; i < count; i++) { /* the lowest that is left comes next */
        int lowest = i;
        for (int j = i + 1; j < count; j++)
            lowest = y[j] > y[lowest] ? j : lowest;
        double place = fmin(y[lowest], under - LABEL_STEP);
        fprintf(page, "<text x=\"%d\" y=\"%.1f\">%s</text>\n", RIGHT + 7, place, names[lowest]);
        y[lowest] = y[i];
        names[lowest] = names[i];
        under = place;
    }
}

/* A triangle on top of the plot and a line down through it. */
static void draw_turnings(FILE *page, const struct scale *scale, const struct windrow *windrow, double bottom)
{
    for (size_t i = 0; i < windrow->turning_count; i++) {
        double x = x_of(scale, windrow->turnings[i]);
        fprintf(page, "<line class=\"turning\" x1=\"%.1f\" y1=\"%.1f\" x2=\"%.1f\" y2=\"%.1f\"/>\n", x, scale->top, x, bottom);
        fprintf(page, "<path class=\"mark\" d=\"M%.1f %.1fl-5 -10h10z\"/>\n", x, scale->top);
    }
}

static void draw_lane(FILE *page, const struct scale *scale, const struct spells *spells, const char *name, const char *class,
                      double y)
{
    fprintf(page, "<text x=\"%d\" y=\"%.1f\" text-anchor=\"end\">%s</text>\n", LEFT - 8, y + LANE_HEIGHT - 2, name);
    for (size_t i = 0; i < spells->count; i++) {
        double from = x_of(scale, spells->list[i].from), to = x_of(scale, spells->list[i].to);
        fprintf(page, "<rect class=\"%s\" x=\"%.1f\" y=\"%.1f\" width=\"%.1f\" height=\"%d\"/>\n", class, from, y,
                fmax(to - from, NARROWEST_BAR), LANE_HEIGHT);
    }
    fprintf(page, "<rect class=\"lane\" x=\"%d\" y=\"%.1f\" width=\"%d\" height=\"%d\"/>\n", LEFT, y, RIGHT - LEFT, LANE_HEIGHT);
}

static void draw_panel(FILE *page, const struct scale *scale, const struct windrow *windrow)
{
    double bottom = scale->top + PLOT_HEIGHT;
    double lanes = bottom + LANES_DOWN, lanes_end = lanes + LANE_STEP + LANE_HEIGHT;
    fprintf(page, "<text class=\"heading\" x=\"%d\" y=\"%.1f\">%s: %s</text>\n", LEFT, scale->top - 18, windrow->name,
            windrow->manner);
    draw_lines_of_time(page, scale, lanes_end);
    draw_degrees(page, scale);
    draw_turnings(page, scale, windrow, bottom);
    draw_line(page, scale, windrow, &air_style);
    draw_line(page, scale, windrow, &edge_style);
    draw_line(page, scale, windrow, &core_style);
    draw_names(page, scale, windrow);
    fprintf(page, "<rect class=\"frame\" x=\"%d\" y=\"%.1f\" width=\"%d\" height=\"%d\"/>\n", LEFT, scale->top, RIGHT - LEFT,
            PLOT_HEIGHT);
    draw_lane(page, scale, &windrow->hot, "too hot", "hot", lanes);
    draw_lane(page, scale, &windrow->airless, "short of air", "airless", lanes + LANE_STEP);
    draw_dates(page, scale, lanes_end);
}

static void draw_legend(FILE *page)
{
    static const struct {
        const char *class, *text;
        int x;
    } lines[] = {{"core", "core", LEFT}, {"edge", "edge", 205}, {"air", "air", 298}, {"limit", "70 °C", 380}};
    for (size_t i = 0; i < sizeof lines / sizeof lines[0]; i++)
        fprintf(page, "<path class=\"%s\" d=\"M%d 20h36\"/>\n<text x=\"%d\" y=\"25\">%s</text>\n", lines[i].class, lines[i].x,
                lines[i].x + 43, lines[i].text);
    fprintf(page, "<path class=\"turning\" d=\"M485 18v12\"/>\n<path class=\"mark\" d=\"M485 20l-5 -10h10z\"/>\n"
                  "<text x=\"497\" y=\"25\">turned</text>\n");
    fprintf(page, "<rect class=\"hot\" x=\"570\" y=\"13\" width=\"36\" height=\"%d\"/>\n"
                  "<text x=\"613\" y=\"25\">alarm: too hot</text>\n",
            LANE_HEIGHT);
    fprintf(page, "<rect class=\"airless\" x=\"737\" y=\"13\" width=\"36\" height=\"%d\"/>\n"
                  "<text x=\"780\" y=\"25\">alarm: short of air</text>\n",
            LANE_HEIGHT);
}

/*
 * The range of all readings in full tens, from 0 to 80 at least. What a broken probe says does not squeeze the rest together, but
 * is drawn at the chart's edge.
 */
static void measure(struct scale *scale, const struct windrow windrows[WINDROWS])
{
    const struct style *styles[] = {&core_style, &edge_style, &air_style};
    scale->coldest = 0;
    scale->hottest = 80;
    for (size_t i = 0; i < WINDROWS; i++)
        for (size_t j = 0; j < windrows[i].reading_count; j++)
            for (size_t k = 0; k < 3; k++) {
                double degrees = value_of(&windrows[i].readings[j], styles[k]);
                if (!isfinite(degrees))
                    continue;
                scale->coldest = fmin(scale->coldest, fmax(10 * floor(degrees / 10), COLDEST));
                scale->hottest = fmax(scale->hottest, fmin(10 * ceil(degrees / 10), HOTTEST));
            }
}

void chart_draw(FILE *page, const struct windrow windrows[WINDROWS], int64_t from, int64_t to)
{
    struct scale scale = {from, to, 0, 0, PLOT_TOP};
    measure(&scale, windrows);
    fprintf(page, "<svg viewBox=\"0 0 %d %d\" role=\"img\" aria-label=\"Temperatures, turnings and alarms of both windrows\">\n",
            WIDTH, HEIGHT);
    fprintf(page, "<defs><pattern id=\"hatch\" width=\"5\" height=\"5\" patternUnits=\"userSpaceOnUse\""
                  " patternTransform=\"rotate(45)\"><rect width=\"5\" height=\"5\" fill=\"#fff\"/>"
                  "<rect width=\"2\" height=\"5\" fill=\"#124a8c\"/></pattern></defs>\n");
    draw_legend(page);
    for (size_t i = 0; i < WINDROWS; i++, scale.top += PANEL_STEP)
        draw_panel(page, &scale, &windrows[i]);
    fprintf(page, "</svg>\n");
}
