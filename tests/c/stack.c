/*
 * What each exported call needs of stack, and each inline function on it: it is run on a painted stack of its own, and the
 * deepest byte that it changed is looked for. Counted from the caller's frame on, so with the state that is pushed and the
 * answer that is returned. It fails where one needs more than its header says, or a proved call of the gateway more than it is
 * known to: the header's figure has room for the copies of a state that a compiler may make. docs/PERFORMANCE.md has the
 * figures.
 */
#define _XOPEN_SOURCE 700
#include <assert.h>
#include <stdio.h>
#include <string.h>
#include <ucontext.h>

#include "windrow_gateway.h"
#include "windrow_reader.h"

#define PROVED_STACK_BYTES 6656 /* no room for one more copy of the state in any call but Fresh */
#define POLL_STACK_BYTES 6816 /* no room for a record or for one more copy of the state */
#define READER_STACK_BYTES 1023 /* windrow_reader.h: less than 1 KiB */
#define PAINT 0xA5

static uint8_t stack[65536];
static ucontext_t tester, caller;
static uint8_t *frame_of_caller;

static uint8_t archive[36000];
static uint8_t live[1424];
static struct windrow_state state;
static struct windrow_gateway_answer answer;
static uint32_t number, bad_place, to_send; /* what is answered by pointer */
static const struct windrow_stamp stamp = {8, 29, 7, 11, 36, 52};
static const uint16_t floats[32] = {7101, 61};
static const uint16_t texts[32] = {4001, 14, 14001, 8};

static uint8_t request[8];
static uint8_t frame[WINDROW_LEAST_REPLY]; /* the reply to a poll */
static struct windrow_poll_answer polled;

static struct windrow_part part;
static struct windrow_stamp_answer when;
static struct windrow_point point;
static struct windrow_alarm_answer logged;
static uint16_t crc;
static uint8_t taken[WINDROW_TABLE_BYTES];
static bool is_taken;

/* Each call by itself, with arguments that take it through all its work. */
static void fresh(void) { answer = windrow_gateway_fresh(false, 17, 74, archive, sizeof archive); }
static void unlock(void) { answer = windrow_gateway_unlock(state, archive, sizeof archive); }
static void lock(void) { answer = windrow_gateway_lock(state, archive, sizeof archive); }
static void stop(void) { answer = windrow_gateway_stop(state, archive, sizeof archive); }
static void start(void) { answer = windrow_gateway_start(state, archive, sizeof archive); }
static void define(void) { answer = windrow_gateway_define(state, archive, sizeof archive, 10, floats, 9); }
static void trigger(void) { answer = windrow_gateway_trigger(state, archive, sizeof archive, 10, 1810); }
static void alarm(void) { answer = windrow_gateway_alarm(state, archive, sizeof archive, 32, 1928, 0, 7228); }
static void scan(void) { answer = windrow_gateway_scan(state, archive, sizeof archive, live, sizeof live, stamp); }
static void poll(void)
{
    polled = windrow_gateway_poll(state, archive, sizeof archive, live, sizeof live, request, sizeof request, frame, sizeof frame);
}
static void record(void) { part = windrow_reader_record(floats, 32, false, frame, polled.length); }
static void stamped(void) { when = windrow_reader_stamp(floats, 32, false, frame, polled.length); }
static void stretch(void) { part = windrow_reader_stretch(floats, 32, false, frame, polled.length, 1); }
static void decode(void) { point = windrow_reader_point(floats, 32, false, frame, polled.length, 1, 61); }
static void check_bytes(void) { crc = windrow_reader_crc(frame, polled.length); }
static void ask_alarm(void) { windrow_request(request, 17, WINDROW_READ, WINDROW_NUMBERED_RECORD + WINDROW_ALARM_FILE, 1); }
static void read_alarm(void) { logged = windrow_read_alarm(false, frame, polled.length); }
static void take_flags(void) { is_taken = windrow_reply_points(frame, polled.length, taken, WINDROW_FIRST_FLAG, 128); }

/* The same with the state by pointer. */
static void fresh_at(void) { number = windrow_fresh(&state, false, 17, 74, archive, sizeof archive); }
static void unlock_at(void) { number = windrow_unlock(&state, archive, sizeof archive); }
static void lock_at(void) { number = windrow_lock(&state, archive, sizeof archive); }
static void stop_at(void) { number = windrow_stop(&state, archive, sizeof archive); }
static void start_at(void) { number = windrow_start(&state, archive, sizeof archive); }
static void define_at(void) { number = windrow_define(&state, archive, sizeof archive, 10, floats, 9, &bad_place); }
static void trigger_at(void) { number = windrow_trigger(&state, archive, sizeof archive, 10, 1810); }
static void alarm_at(void) { number = windrow_alarm(&state, archive, sizeof archive, 32, 1928, 0, 7228); }
static void scan_at(void) { number = windrow_scan(&state, archive, sizeof archive, live, sizeof live, stamp); }
static void poll_at(void)
{
    number = windrow_poll(&state, archive, sizeof archive, live, sizeof live, request, sizeof request, frame, sizeof frame,
                          &to_send);
}

static void (*work)(void);

static void on_painted_stack(void)
{
    frame_of_caller = __builtin_frame_address(0);
    work();
}

/* Runs a call on the painted stack and tells how deep it went. */
static unsigned depth(void (*call)(void))
{
    memset(stack, PAINT, sizeof stack);
    work = call;
    assert(getcontext(&caller) == 0);
    caller.uc_stack.ss_sp = stack;
    caller.uc_stack.ss_size = sizeof stack;
    caller.uc_link = &tester;
    makecontext(&caller, on_painted_stack, 0);
    assert(swapcontext(&tester, &caller) == 0);
    size_t untouched = 0;
    while (untouched < sizeof stack && stack[untouched] == PAINT)
        untouched++;
    assert(untouched > 0);
    return (unsigned)(frame_of_caller - (stack + untouched));
}

static int failures;

/* The bytes of stack that a call needs, which must be done and within its limit. */
static unsigned measure(const char *name, void (*call)(void), const uint32_t *answered, unsigned limit)
{
    unsigned bytes = depth(call);
    if (*answered != WINDROW_DONE || bytes > limit) {
        printf("FAILED: %s needs %u bytes and answers %u; it may need %u\n", name, bytes, (unsigned)*answered, limit);
        failures++;
    }
    return bytes;
}

/* A call both ways, each from the same state. */
static void both(const char *name, void (*by_value)(void), uint32_t *answered, unsigned most, void (*by_pointer)(void))
{
    struct windrow_state before = state;
    number = UINT32_MAX;
    unsigned bytes_by_pointer = measure(name, by_pointer, &number, WINDROW_STACK_BYTES);
    state = before;
    *answered = UINT32_MAX;
    unsigned bytes = measure(name, by_value, answered, most);
    printf("%s: %u bytes of stack, by pointer %u\n", name, bytes, bytes_by_pointer);
}

/* The state goes on to the next call. */
static void next(const char *name, void (*by_value)(void), void (*by_pointer)(void))
{
    both(name, by_value, &answer.number, PROVED_STACK_BYTES, by_pointer);
    state = answer.state;
}

/* Ten files of nine records, 250 bytes of floats or 246 of texts, on the first ten Booleans, and 32 alarm slots on the last 32. */
static void define_all(void)
{
    for (uint32_t i = 0; i < 9; i++) {
        state = windrow_gateway_define(state, archive, sizeof archive, i + 1, i % 2 == 0 ? floats : texts, 9).state;
        state = windrow_gateway_trigger(state, archive, sizeof archive, i + 1, 1801u + i).state;
    }
    for (uint32_t i = 0; i < 31; i++)
        state = windrow_gateway_alarm(state, archive, sizeof archive, i + 1, 1897u + i, 0, 7101).state;
}

static void gateway(void)
{
    next("fresh", fresh, fresh_at);
    next("unlock", unlock, unlock_at);
    define_all();
    next("define", define, define_at);
    next("trigger", trigger, trigger_at);
    next("alarm", alarm, alarm_at);
    next("lock", lock, lock_at);
    next("start", start, start_at);
    next("first scan", scan, scan_at);
    next("quiet scan", scan, scan_at);
    memset(live, 0xFF, sizeof live); /* every flag is on, and every byte of a text is one to be cleaned */
    next("scan of ten files and 32 alarms", scan, scan_at);
    next("stop", stop, stop_at);
}

/* A poll whose reply has this length; the state goes on to the next. */
static void ask(const char *name, uint8_t function, uint16_t address, uint16_t quantity_or_value, uint32_t length)
{
    windrow_request(request, 17, function, address, quantity_or_value);
    both(name, poll, &polled.number, POLL_STACK_BYTES, poll_at);
    if (polled.length != length || to_send != length) {
        printf("FAILED: %s has a reply of %u bytes\n", name, (unsigned)polled.length);
        failures++;
    }
    state = polled.state;
}

/* Ends with the reply that carries record 1 of file 1, as the scan captured it. */
static void polls(void)
{
    ask("poll of every flag", 1, 1801, 128, 21);
    ask("poll of flags across bytes", 1, 1802, 127, 21);
    ask("poll of 62 floats", 3, 7101, 62, 253);
    ask("poll of 31 texts", 3, 4001, 31, 253);
    ask("poll of 33 registers", 3, 3701, 33, 71);
    ask("poll that is an exception", 4, 721, 1, 5);
    ask("poll that sets a requested number", 6, 3703, 1, 8);
    ask("poll of a record by number", 3, 721, 1, 255);
    ask("poll of a record requested", 3, 701, 0, 255);
}

static void measure_reader(const char *name, void (*call)(void), uint32_t *answered)
{
    *answered = UINT32_MAX;
    printf("reader's %s: %u bytes of stack\n", name, measure(name, call, answered, READER_STACK_BYTES));
}

/* A call that answers nothing of the card. */
static void measure_answerless(const char *name, void (*call)(void))
{
    static const uint32_t done = WINDROW_DONE;
    printf("reader's %s: %u bytes of stack\n", name, measure(name, call, &done, READER_STACK_BYTES));
}

static void reader(void)
{
    measure_reader("record", record, &part.number);
    measure_reader("stamp", stamped, &when.number);
    measure_reader("stretch", stretch, &part.number);
    measure_reader("point", decode, &point.number);
    measure_answerless("CRC", check_bytes);
    measure_answerless("request", ask_alarm);
    poll();
    state = polled.state;
    measure_reader("alarm record", read_alarm, &logged.number);
    windrow_request(request, 17, WINDROW_READ_FLAGS, WINDROW_FIRST_FLAG, 128);
    poll();
    measure_answerless("live points", take_flags);
    assert(is_taken);
}

int main(void)
{
    gateway();
    polls();
    reader();
    return failures != 0;
}
