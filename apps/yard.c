#include "yard.h"

#include <math.h>

#include "windrow_points.h"

const char yard_help[] =
    "\n"
    "The simulated yard puts into the live table:\n"
    "  1801 on in the first half of each hour        1802 on in the first of every three hours\n"
    "  1803 north is being turned                    1804 south is being turned\n"
    "  1805 north is too hot                         1806 south is too hot\n"
    "  1807 north is short of air                    1808 south is short of air\n"
    "  1809 north is being watered                   1810 south is being watered\n"
    "  1811 north is without the fan                 1812 south is without the fan\n"
    "       there is one fan, moved from one to the other every third day at ten past seven\n"
    "  3001 north's oxygen, 3002 its moisture, 3003 south's oxygen, 3004 its moisture: tenths of a percent\n"
    "  3005 the air's temperature: tenths of a degree Celsius\n"
    "  4001 NORTH, 4002 SOUTH\n"
    "  5101 turner passes and 5102 litres of water in all; 5103 passes on north, 5104 on south\n"
    "  7101 north's core, 7102 its edge, 7103 south's core, 7104 its edge, 7105 the air: degrees Celsius\n"
    "  14001 why north was turned last, 14002 why south was\n"
    "  14003 who turned north last, 14004 who turned south, as an old handheld types it in code page 437: J\\x81rgen and Zo\\x89,\n"
    "        which are captured and polled as J?rgen and Zo?\n";

#define MINUTE 60
#define HOUR 3600
#define DAY (24 * HOUR)

/* The model goes on by this at most, however long a step is, so that a season hardly depends on the step. */
#define MODEL_SECONDS MINUTE

/* The weather changes its mind this often. */
#define WEATHER_SECONDS 600

/* Who works in the yard does so from seven to five, looks up every half hour what is to be done, and turns in forty minutes. */
#define LOOK_SECONDS (30 * MINUTE)
#define WORK_BEGINS (7 * HOUR)
#define WORK_ENDS (17 * HOUR)
#define TURN_SECONDS (40 * MINUTE)
#define WATERING_SECONDS HOUR

/* North: a probe that has complained for two hours, but not twice within 36. South: every second week at eight. */
#define COMPLAINT_SECONDS (2 * HOUR)
#define REST_SECONDS (36 * HOUR)
#define CALENDAR_DAYS 14
#define CALENDAR_HOUR (8 * HOUR)
#define PROBE_HOT 68.0
#define PROBE_AIRLESS 5.0

/* The one fan is at south first, and is moved every third day as work begins. What it blows is too little for the model. */
#define FAN_DAYS 3
#define FAN_MOVED (WORK_BEGINS + 10 * MINUTE)

/* Who turns north and who turns south, Jürgen and Zoë, as an old handheld types them in code page 437. */
#define NORTH_DRIVER "J\x81rgen"
#define SOUTH_DRIVER "Zo\x89"

/* Alarms come and go at different values, lest one flickers. */
#define HOT_ON 70.0
#define HOT_OFF 68.0
#define AIRLESS_ON 4.0
#define AIRLESS_OFF 6.0
#define DRY 45.0

#define NOT_NOW INT64_MAX

/* Rotting: the part of the exposed food that goes in an hour at best; what all food is worth in degrees and percent of oxygen. */
#define ROT_AN_HOUR 0.00499
#define HEAT_OF_FOOD 1105.0
#define OXYGEN_OF_FOOD 200.0
#define HALF_OXYGEN 8.04 /* at which it rots half as fast as it might */

/* What part of the food is exposed in a new windrow, and in one that has just been mixed; and the clumps that open in an hour. */
#define NEW_EXPOSED 0.24
#define MIXED_EXPOSED 0.38
#define CLUMPS_OPEN 0.0012

/* Between the first and the last temperature it rots, and fastest at the one in between. */
#define COLDEST_ROT (-4.0)
#define BEST_ROT 55.1
#define HOTTEST_ROT 74.1

/* An hour's exchange, as a part of the difference: core with edge, edge with core, edge with air, pores with air; mixing. */
#define CORE_LOSES 0.0179
#define EDGE_GAINS 0.080
#define EDGE_LOSES 0.065
#define AIR_SEEPS_IN 0.0020
#define WIND_HELPS 0.37
#define MIXING_COOLS 0.72
#define FRESH_AIR 20.9

/* What a percent of moisture is in litres, in a windrow of some 150 tonnes. */
#define LITRES_A_PERCENT 900.0
#define WATERING_PERCENT 10.0

static int64_t time_of_day(int64_t now)
{
    return now % DAY;
}

static bool is_working_time(int64_t now)
{
    return WORK_BEGINS <= time_of_day(now) && time_of_day(now) < WORK_ENDS;
}

/* A number from -1 to 1: xorshift, so that every season has the same weather. */
static double chance(struct yard *yard)
{
    yard->noise ^= yard->noise << 13;
    yard->noise ^= yard->noise >> 17;
    yard->noise ^= yard->noise << 5;
    return yard->noise / (UINT32_MAX / 2.0) - 1;
}

static void change_weather(struct yard *yard)
{
    yard->cloud = 0.995 * yard->cloud + 0.12 * chance(yard);
    yard->wind = 0.990 * yard->wind + 0.15 * chance(yard);
}

/* May is cool and July warm, four in the morning is the coldest and four in the afternoon the warmest. */
static double air_of(const struct yard *yard)
{
    const double pi = 3.14159265358979323846;
    double days = (double)(yard->now - yard->began) / DAY;
    double season = 12 + 8 * (1 - exp(-days / 45));
    double daily = -5.5 * cos(2 * pi * (double)(time_of_day(yard->now) - 4 * HOUR) / DAY);
    return season + daily + 1.5 * yard->cloud;
}

/*
 * How well it rots at a temperature, 1 at best: the cardinal temperature model (Rosso and others, 1993), by which microbes grow
 * between a least and a most temperature and best at one in between, nearer to the most.
 */
static double warmth_factor(double t)
{
    const double least = COLDEST_ROT, best = BEST_ROT, most = HOTTEST_ROT;
    if (t <= least || t >= most)
        return 0;
    double slope = (best - least) * (t - best) - (best - most) * (best + least - 2 * t);
    return (t - most) * (t - least) * (t - least) / ((best - least) * slope);
}

static double between(double least, double value, double most)
{
    return fmin(fmax(value, least), most);
}

/* What rots in an hour: all factors are 0 to 1. */
static double rot_of(const struct pile *pile)
{
    double oxygen = pile->oxygen / (pile->oxygen + HALF_OXYGEN);
    double moisture = between(0, (pile->moisture - 20) / 35, 1);
    return ROT_AN_HOUR * pile->exposed * oxygen * moisture * warmth_factor(pile->core);
}

static void rot(struct pile *pile, double air, double wind, double hours)
{
    double rotted = rot_of(pile) * hours;
    double flow = (pile->core - pile->edge) * hours;
    pile->food -= rotted;
    pile->exposed += CLUMPS_OPEN * (pile->food - pile->exposed) * hours - rotted;
    pile->core += HEAT_OF_FOOD * rotted - CORE_LOSES * flow;
    pile->edge += EDGE_GAINS * flow - EDGE_LOSES * (1 + 0.3 * wind) * (pile->edge - air) * hours;
    pile->oxygen += AIR_SEEPS_IN * (1 + WIND_HELPS * wind) * (FRESH_AIR - pile->oxygen) * hours - OXYGEN_OF_FOOD * rotted;
    pile->oxygen = between(0, pile->oxygen, FRESH_AIR);
    pile->moisture -= 0.0006 * fmax(pile->core - air, 0) * hours;
}

/* The turner lifts the core out into the air, puts the edge inside and breaks clumps up. */
static void mix(struct pile *pile, double air, double hours)
{
    double share = 1 - exp(-MIXING_COOLS * hours);
    double outside = (pile->edge + air) / 2;
    pile->core -= share * (pile->core - outside);
    pile->edge -= share * (pile->edge - (pile->core + 2 * air) / 3);
    pile->oxygen += (1 - exp(-6 * hours)) * (FRESH_AIR - pile->oxygen);
    pile->moisture -= 2.0 * hours;
    pile->exposed += (1 - exp(-2 * hours)) * fmax(MIXED_EXPOSED * pile->food - pile->exposed, 0);
}

static void notice(struct trouble *trouble, bool complaint, bool on, bool off, int64_t now)
{
    if (!complaint)
        trouble->since = NOT_NOW;
    else if (trouble->since == NOT_NOW)
        trouble->since = now;
    trouble->alarm = on || (trouble->alarm && !off);
}

static bool has_lasted(const struct trouble *trouble, int64_t now)
{
    return trouble->since != NOT_NOW && now - trouble->since >= COMPLAINT_SECONDS;
}

static bool is_turning(const struct pile *pile, int64_t now)
{
    return now < pile->turning_until;
}

static bool is_watering(const struct pile *pile, int64_t now)
{
    return now < pile->watering_until;
}

static void turn(struct pile *pile, const char *reason, const char *driver, int64_t now)
{
    pile->turned_at = now;
    pile->turning_until = now + TURN_SECONDS;
    pile->passes++;
    pile->reason = reason;
    pile->driver = driver;
}

static void work_on_north(struct pile *north, int64_t now)
{
    if (!is_working_time(now) || now - north->turned_at < REST_SECONDS)
        return;
    if (has_lasted(&north->heat, now))
        turn(north, "too hot", NORTH_DRIVER, now);
    else if (has_lasted(&north->air, now))
        turn(north, "short of air", NORTH_DRIVER, now);
}

static void work_on_south(struct pile *south, int64_t now, int64_t began)
{
    int64_t day = now / DAY - began / DAY;
    bool is_the_day = day > 0 && day % CALENDAR_DAYS == 0 && is_working_time(now) && time_of_day(now) >= CALENDAR_HOUR;
    if (is_the_day && south->turned_at / DAY != now / DAY)
        turn(south, "calendar", SOUTH_DRIVER, now);
}

static void water(struct yard *yard, struct pile *pile, double hours)
{
    if (pile->moisture < DRY && is_working_time(yard->now) && !is_turning(pile, yard->now) && !is_watering(pile, yard->now))
        pile->watering_until = yard->now + WATERING_SECONDS;
    if (!is_watering(pile, yard->now))
        return;
    double percent = WATERING_PERCENT * hours * HOUR / WATERING_SECONDS;
    pile->moisture += percent;
    yard->litres += percent * LITRES_A_PERCENT;
}

static void pass_pile(struct yard *yard, struct pile *pile, double hours)
{
    double air = air_of(yard);
    rot(pile, air, between(-1, yard->wind, 1), hours);
    if (is_turning(pile, yard->now))
        mix(pile, air, hours);
    water(yard, pile, hours);
    notice(&pile->heat, pile->core > PROBE_HOT, pile->core > HOT_ON, pile->core < HOT_OFF, yard->now);
    notice(&pile->air, pile->oxygen < PROBE_AIRLESS, pile->oxygen < AIRLESS_ON, pile->oxygen > AIRLESS_OFF, yard->now);
}

static struct pile new_pile(double moisture, double air, int64_t now)
{
    struct pile pile = {
        .core = air + 4, .edge = air + 2, .oxygen = 20, .moisture = moisture, .food = 1, .exposed = NEW_EXPOSED,
        .heat = {NOT_NOW, false}, .air = {NOT_NOW, false},
        .turned_at = now, .turning_until = now, .watering_until = now, .passes = 0, .reason = "", .driver = "",
    };
    return pile;
}

void yard_begin(struct yard *yard, int64_t now)
{
    struct yard fresh = {.now = now, .began = now, .noise = 20070829};
    fresh.north = new_pile(60, air_of(&fresh), now);
    fresh.south = new_pile(59, air_of(&fresh), now);
    *yard = fresh;
}

void yard_pass(struct yard *yard, uint32_t seconds)
{
    while (seconds > 0) {
        uint32_t part = seconds < MODEL_SECONDS ? seconds : MODEL_SECONDS;
        int64_t before = yard->now;
        yard->now += part;
        seconds -= part;
        if (before / WEATHER_SECONDS != yard->now / WEATHER_SECONDS)
            change_weather(yard);
        pass_pile(yard, &yard->north, (double)part / HOUR);
        pass_pile(yard, &yard->south, (double)part / HOUR);
        if (before / LOOK_SECONDS == yard->now / LOOK_SECONDS)
            continue;
        work_on_north(&yard->north, yard->now);
        work_on_south(&yard->south, yard->now, yard->began);
    }
}

static int16_t tenths(double value)
{
    return (int16_t)lround(between(INT16_MIN, value * 10, INT16_MAX));
}

static bool is_fan_at_north(const struct yard *yard)
{
    int64_t days = (yard->now - FAN_MOVED) / DAY - yard->began / DAY;
    return days / FAN_DAYS % 2 == 1;
}

static void fill_flags(const struct yard *yard, uint8_t *table)
{
    const struct pile *north = &yard->north, *south = &yard->south;
    windrow_put_flag(table, 1801, yard->now % HOUR < HOUR / 2);
    windrow_put_flag(table, 1802, yard->now % (3 * HOUR) < HOUR);
    windrow_put_flag(table, 1803, is_turning(north, yard->now));
    windrow_put_flag(table, 1804, is_turning(south, yard->now));
    windrow_put_flag(table, 1805, north->heat.alarm);
    windrow_put_flag(table, 1806, south->heat.alarm);
    windrow_put_flag(table, 1807, north->air.alarm);
    windrow_put_flag(table, 1808, south->air.alarm);
    windrow_put_flag(table, 1809, is_watering(north, yard->now));
    windrow_put_flag(table, 1810, is_watering(south, yard->now));
    windrow_put_flag(table, 1811, !is_fan_at_north(yard));
    windrow_put_flag(table, 1812, is_fan_at_north(yard));
}

void yard_fill(const struct yard *yard, uint8_t table[WINDROW_TABLE_BYTES])
{
    const struct pile *north = &yard->north, *south = &yard->south;
    const double tenths_of[] = {north->oxygen, north->moisture, south->oxygen, south->moisture, air_of(yard)};
    const double degrees[] = {north->core, north->edge, south->core, south->edge, air_of(yard)};
    fill_flags(yard, table);
    for (uint32_t i = 0; i < 5; i++) {
        windrow_put_int16(table, 3001 + i, tenths(tenths_of[i]));
        windrow_put_float(table, 7101 + i, (float)degrees[i]);
    }
    windrow_put_text(table, 4001, "NORTH");
    windrow_put_text(table, 4002, "SOUTH");
    windrow_put_int32(table, 5101, north->passes + south->passes);
    windrow_put_int32(table, 5102, (int32_t)yard->litres);
    windrow_put_int32(table, 5103, north->passes);
    windrow_put_int32(table, 5104, south->passes);
    windrow_put_text(table, 14001, north->reason);
    windrow_put_text(table, 14002, south->reason);
    windrow_put_text(table, 14003, north->driver);
    windrow_put_text(table, 14004, south->driver);
}
