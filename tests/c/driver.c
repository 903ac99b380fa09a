/*
 * driver.c: holds the example driver to document 01's clock and ledger, on a
 * timer in memory that this file runs. Between two calls any number of cycles
 * pass, within a call none: what a wrap amid a sample does is for the emulated
 * boards to try.
 *
 * Prints each failed check, then a count; exits 1 if any check failed.
 */
#include "systick_clock.h"

#include "checks.h"
#include "driver_port.h"

#include <stddef.h>

#define COUNTFLAG (1u << 16)
#define LARGEST TICKCLOCK_SYSTICK_MAX_LOAD

static struct systick_registers timer;
static uint64_t ran; /* the cycles since the start, 01's T */
static struct systick_clock clk;
uint32_t masked;
uint32_t masks;

/* ---- The timer ---- */

/* So many cycles pass. */
static void run(uint64_t cycles)
{
    const uint64_t load = (uint64_t)timer.LOAD + 1;
    const uint64_t since_wrap = timer.VAL == 0 ? 0 : load - timer.VAL;
    const uint64_t then = since_wrap + cycles;

    if (then >= load) {
        timer.CTRL |= COUNTFLAG;
    }
    timer.VAL = then % load == 0 ? 0 : (uint32_t)(load - then % load);
    ran += cycles;
}

/*
 * Memory keeps what was read, so after a call the flag is cleared here. A call
 * masks once, and unmasks; one that is refused before has no need to.
 */
static int32_t called(int32_t number, uint32_t expected_masks)
{
    timer.CTRL &= ~COUNTFLAG;
    CHECK(masked, 0);
    CHECK(masks, expected_masks);
    masks = 0;
    return number;
}

#define CALL(expr, expected) CHECK_NUMBER(called(expr, 1), expected)
#define REFUSED_AT_ONCE(expr) \
    CHECK_NUMBER(called(expr, 0), TICKCLOCK_EINVAL)

static void start(uint32_t load, uint32_t tick)
{
    ran = 0;
    CALL(systick_clock_start(&clk, &timer, load, tick), TICKCLOCK_OK);
    CHECK(timer.LOAD, load - 1);
}

/* A sample that reads the cycles run. */
static void sample(void)
{
    uint64_t now = 0;

    CALL(systick_clock_sample(&clk, &now), TICKCLOCK_OK);
    CHECK(now, ran);
}

/* The cycles pass, with a sample in each period. */
static void run_sampled(uint64_t cycles)
{
    while (cycles > 0) {
        const uint64_t part = cycles < clk.load ? cycles : clk.load;

        run(part);
        sample();
        cycles -= part;
    }
}

/* ---- The clock ---- */

static void reads_true(void)
{
    uint64_t ticks = 0;
    uint32_t draw = 1;

    start(1000, 7);
    for (int i = 0; i < 20000; i++) {
        uint64_t more = 0;

        draw = draw * 1664525u + 1013904223u;
        run((draw >> 8) % 1001);
        sample();
        if (draw >> 30 == 0) {
            CALL(systick_clock_announce(&clk, &more), TICKCLOCK_OK);
            ticks += more;
            CHECK(ticks * 7 <= ran && ran - ticks * 7 <= 1000 + 7 - 2, true);
        }
    }
}

/* A thousand periods without an announcement: no sample is refused. */
static void makes_room(void)
{
    uint64_t ticks = 0;

    start(LARGEST, 12000);
    run_sampled(1000 * (uint64_t)LARGEST);
    CALL(systick_clock_announce(&clk, &ticks), TICKCLOCK_OK);
    CHECK(ticks, ran / 12000);
    CALL(systick_clock_announce(&clk, &ticks), TICKCLOCK_OK);
    CHECK(ticks, 0);
    run_sampled(12000);
    CALL(systick_clock_announce(&clk, &ticks), TICKCLOCK_OK);
    CHECK(ticks, 0); /* since announcements count whole periods */

    /* Ticks that 32 bits would lose. */
    start(1u << 23, 1);
    run_sampled(512 * (uint64_t)(1u << 23));
    CALL(systick_clock_announce(&clk, &ticks), TICKCLOCK_OK);
    CHECK(ticks, (uint64_t)1 << 32);
}

static void refuses_timers(void)
{
    uint64_t now = 42;

    REFUSED_AT_ONCE(systick_clock_start(&clk, &timer, 1, 1));
    REFUSED_AT_ONCE(systick_clock_start(&clk, &timer, LARGEST + 1, 1));
    REFUSED_AT_ONCE(systick_clock_start(&clk, &timer, 1000, 0));
    start(1000, 1);
    timer.VAL = 1000;
    CALL(systick_clock_sample(&clk, &now), TICKCLOCK_EINVAL);
    CHECK(now, 42);
}

/* ---- Threads ---- */

static struct thread_usage one;
static struct thread_usage two;

static void fresh(uint32_t load)
{
    one = two = (struct thread_usage)THREAD_USAGE_IDLE;
    start(load, 1);
    run(5);
}

/* The records and the total are these. Each of the three reads masks once. */
#define USED(one_cycles, two_cycles, all_cycles) \
    do { \
        CHECK(systick_clock_usage(&one).total_cycles, one_cycles); \
        CHECK(systick_clock_usage(&two).total_cycles, two_cycles); \
        CHECK(masks, 2); \
        CHECK(systick_clock_total(&clk), all_cycles); \
        CHECK_NUMBER(called(TICKCLOCK_OK, 3), TICKCLOCK_OK); \
    } while (0)

static void takes_turns(void)
{
    fresh(1000);
    CALL(systick_clock_enable(&clk, &one), TICKCLOCK_OK);
    CALL(systick_clock_switch(&clk, &one), TICKCLOCK_OK);
    run(300);
    CALL(systick_clock_switch(&clk, &two), TICKCLOCK_OK);
    USED(300, 0, 300);
    run(400);
    CALL(systick_clock_switch(&clk, NULL), TICKCLOCK_OK);
    USED(300, 0, 700);
    run(900);
    CALL(systick_clock_switch(&clk, &one), TICKCLOCK_OK);
    USED(300, 0, 700);
    run(1);
    CALL(systick_clock_switch(&clk, &one), TICKCLOCK_OK);
    USED(301, 0, 701);
    CHECK(one.num_windows, 1);
}

/* The running thread is charged for just the cycles that it was tracked. */
static void tracks_what_runs(void)
{
    fresh(1000);
    CALL(systick_clock_switch(&clk, &one), TICKCLOCK_OK);
    run(300);
    CALL(systick_clock_enable(&clk, &one), TICKCLOCK_OK);
    USED(0, 0, 300);
    run(200);
    CALL(systick_clock_enable(&clk, &one), TICKCLOCK_OK); /* as it is */
    USED(0, 0, 300);
    CALL(systick_clock_enable(&clk, &two), TICKCLOCK_OK); /* not running */
    USED(0, 0, 300);
    run(50);
    CALL(systick_clock_disable(&clk, &one), TICKCLOCK_OK);
    USED(250, 0, 550);
    run(100);
    CALL(systick_clock_switch(&clk, NULL), TICKCLOCK_OK);
    USED(250, 0, 650);
    CHECK(one.num_windows, 1);
    CHECK(two.num_windows, 1);
    CHECK(one.track_usage, false);
    CHECK(two.track_usage, true);
}

/* A time whose low 32 bits are 0 has the stamp 1, since 0 means stopped. */
static void stamps_no_zero(void)
{
    one = two = (struct thread_usage){ true, 0, 1 };
    start(LARGEST, 1);
    CALL(systick_clock_switch(&clk, &one), TICKCLOCK_OK);
    run(300);
    CALL(systick_clock_switch(&clk, &two), TICKCLOCK_OK);
    USED(299, 0, 299);
    run_sampled(((uint64_t)1 << 32) - 300);
    CALL(systick_clock_switch(&clk, &one), TICKCLOCK_OK);
    USED(299, ((uint64_t)1 << 32) - 299, (uint64_t)1 << 32);
    run(300);
    CALL(systick_clock_switch(&clk, NULL), TICKCLOCK_OK);
    USED(598, ((uint64_t)1 << 32) - 299, ((uint64_t)1 << 32) + 299);
}

/* A thread runs on for three times what a stamp can tell. */
static void runs_on(void)
{
    const uint64_t cycles = 3 * ((uint64_t)1 << 32) + 12345;

    fresh(LARGEST);
    CALL(systick_clock_enable(&clk, &one), TICKCLOCK_OK);
    CALL(systick_clock_switch(&clk, &one), TICKCLOCK_OK);
    run_sampled(cycles);
    CALL(systick_clock_switch(&clk, NULL), TICKCLOCK_OK);
    USED(cycles, 0, cycles);
    CHECK(one.num_windows, 1);
}

/* A reading below the stamp is no long stretch. */
static void falls_back(void)
{
    uint64_t now = 0;

    fresh(1000);
    CALL(systick_clock_enable(&clk, &one), TICKCLOCK_OK);
    run(500);
    CALL(systick_clock_switch(&clk, &one), TICKCLOCK_OK);
    timer.VAL += 100;
    CALL(systick_clock_sample(&clk, &now), TICKCLOCK_OK);
    CHECK(now, 405);
    USED(0, 0, 0);
    run(300);
    CALL(systick_clock_switch(&clk, NULL), TICKCLOCK_OK);
    USED(200, 0, 200);
}

/* ---- Refused: the sample is kept, and nothing else changes ---- */

static void refuses_full_totals(void)
{
    uint64_t now = 0;

    fresh(LARGEST);
    one = (struct thread_usage){ true, UINT64_MAX - 9, 1 };
    CALL(systick_clock_switch(&clk, &one), TICKCLOCK_OK);
    run(10);
    CALL(systick_clock_switch(&clk, &two), TICKCLOCK_EOVERFLOW);
    CALL(systick_clock_disable(&clk, &one), TICKCLOCK_EOVERFLOW);
    CHECK(one.track_usage, true);
    USED(UINT64_MAX - 9, 0, 0);
    CHECK(clk.running == &one, true);
    run_sampled((uint64_t)3 << 30); /* a sample is not refused for it */
    USED(UINT64_MAX - 9, 0, 0);

    fresh(1000);
    one = (struct thread_usage){ true, 0, 1 };
    CALL(systick_clock_switch(&clk, &one), TICKCLOCK_OK);
    clk.total_cycles = UINT64_MAX - 9;
    run(10);
    CALL(systick_clock_switch(&clk, &two), TICKCLOCK_EOVERFLOW);
    USED(0, 0, UINT64_MAX - 9);
    CALL(systick_clock_sample(&clk, &now), TICKCLOCK_OK);
    CHECK(now, ran);
}

static void refuses_full_windows(void)
{
    fresh(1000);
    one.num_windows = two.num_windows = UINT32_MAX;
    CALL(systick_clock_switch(&clk, &one), TICKCLOCK_OK);
    run(10);
    CALL(systick_clock_enable(&clk, &one), TICKCLOCK_EOVERFLOW);
    CALL(systick_clock_enable(&clk, &two), TICKCLOCK_EOVERFLOW);
    CHECK(one.track_usage || two.track_usage, false);
    USED(0, 0, 0); /* the stretch stays open */
    run(10);
    CALL(systick_clock_switch(&clk, NULL), TICKCLOCK_OK);
    USED(0, 0, 20);
}

/* ---- Once more ---- */

static void starts_again(void)
{
    uint64_t ticks = 42;

    fresh(1000);
    CALL(systick_clock_enable(&clk, &one), TICKCLOCK_OK);
    CALL(systick_clock_switch(&clk, &one), TICKCLOCK_OK);
    run_sampled(2500);
    start(500, 1);
    USED(0, 0, 0);
    CHECK(one.num_windows, 1);
    run_sampled(100);
    CALL(systick_clock_announce(&clk, &ticks), TICKCLOCK_OK);
    CHECK(ticks, 0);
    CALL(systick_clock_switch(&clk, NULL), TICKCLOCK_OK);
    USED(0, 0, 0);
}

/* Called with interrupts masked, each function leaves them so. */
static void leaves_masked(void)
{
    uint64_t any;

    fresh(1000);
    masked = 1;
    (void)systick_clock_start(&clk, &timer, 1000, 1);
    CHECK(masked, 1);
    (void)systick_clock_sample(&clk, &any);
    CHECK(masked, 1);
    (void)systick_clock_announce(&clk, &any);
    CHECK(masked, 1);
    (void)systick_clock_switch(&clk, &one);
    CHECK(masked, 1);
    (void)systick_clock_enable(&clk, &one);
    CHECK(masked, 1);
    (void)systick_clock_disable(&clk, &one);
    CHECK(masked, 1);
    (void)systick_clock_total(&clk);
    CHECK(masked, 1);
    (void)systick_clock_usage(&one);
    CHECK(masked, 1);
    CHECK(masks, 8);
    masked = masks = 0;
}

int main(void)
{
    reads_true();
    makes_room();
    refuses_timers();
    takes_turns();
    tracks_what_runs();
    stamps_no_zero();
    runs_on();
    falls_back();
    refuses_full_totals();
    refuses_full_windows();
    starts_again();
    leaves_masked();
    return report("the example driver");
}
