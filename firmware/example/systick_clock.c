/* SPDX-License-Identifier: Apache-2.0 */
/* systick_clock.c: a tick clock over SysTick, by the library of tickclock.h. */
#include "systick_clock.h"

#include <stddef.h>

#ifdef SYSTICK_CLOCK_PORT
#include SYSTICK_CLOCK_PORT
#else
#include "systick_port.h"
#endif

/* Of CTRL. Reading it clears COUNTFLAG, which a wrap sets. */
#define CTRL_ENABLE (1u << 0)
#define CTRL_TICKINT (1u << 1)
#define CTRL_CLKSOURCE (1u << 2)
#define CTRL_COUNTFLAG (1u << 16)

/*
 * A stretch is closed from half of what its stamps can tell up to three
 * quarters. A period is far below a quarter, so samples find every long stretch
 * there. Near the whole lies no stretch but a reading that fell, as one may
 * after a wrap was lost.
 */
#define LONG_STRETCH (2u << 30)
#define FALLEN (3u << 30)

/* ---- The timer, with interrupts masked ---- */

/*
 * What counter_value has for a raw value that it takes, written out here so
 * that no call stands between C and D but the one that tells of the wrap.
 */
static uint32_t value_of(uint32_t raw, uint32_t load)
{
    return raw != 0 ? raw : load;
}

static int32_t read_timer(struct systick_clock *clk, uint64_t *now)
{
    struct systick_registers *timer = clk->timer;
    const uint32_t load = clk->load;
    const uint32_t overflow = clk->overflow_cyc;

    const uint32_t raw1 = timer->VAL;                   /* A */
    const uint32_t flag = timer->CTRL & CTRL_COUNTFLAG; /* B clears it */
    const uint32_t raw2 = timer->VAL;                   /* C */
    const uint32_t val2 = value_of(raw2, load); /* a raw 0 is load */
    const uint32_t val1 = value_of(raw1, load);

    if (systick_elapsed_decide_wrap_detected(val1, val2, flag, load,
                                             overflow)) {
        (void)timer->CTRL; /* D, or the next sample counts this wrap again */
    }
    if (counter_value_number(raw1, load) != TICKCLOCK_OK ||
        counter_value_number(raw2, load) != TICKCLOCK_OK) {
        return TICKCLOCK_EINVAL;
    }
    clk->overflow_cyc = systick_elapsed_decide_new_overflow_cyc(
        val1, val2, flag, load, overflow);
    *now = clk->cycle_count + systick_elapsed_decide_elapsed(
                                  val1, val2, flag, load, overflow);
    return TICKCLOCK_OK;
}

/* Announces, and keeps the ticks until they are handed out. */
static int32_t announce(struct systick_clock *clk)
{
    const uint64_t count = clk->cycle_count;
    const uint64_t announced = clk->announced_cycles;
    const uint32_t overflow = clk->overflow_cyc;
    const uint32_t tick = clk->cycles_per_tick;
    const int32_t number =
        systick_announce_decide_number(count, announced, overflow, tick);

    if (number != TICKCLOCK_OK) {
        return number;
    }
    clk->ticks_kept +=
        systick_announce_decide_dticks(count, announced, overflow, tick);
    clk->cycle_count = systick_announce_decide_new_cycle_count(
        count, announced, overflow, tick);
    clk->announced_cycles = systick_announce_decide_new_announced_cycles(
        count, announced, overflow, tick);
    clk->overflow_cyc = 0;
    return TICKCLOCK_OK;
}

/* ---- Stretches, with interrupts masked ---- */

static uint32_t stamp_of(uint64_t now)
{
    return (uint32_t)now != 0 ? (uint32_t)now : 1;
}

/* The cycles of the open stretch so far, 0 where no thread runs. */
static uint32_t stretch(const struct systick_clock *clk, uint64_t now)
{
    return usage_stop_decide_accumulate(clk->usage0)
               ? usage_elapsed_cycles_cycles(stamp_of(now), clk->usage0)
               : 0;
}

/*
 * Charges the open stretch, if there is one, and opens the next at the same
 * stamp; or does neither where a total is full.
 */
static int32_t charge(struct systick_clock *clk, uint64_t now)
{
    if (!usage_stop_decide_accumulate(clk->usage0)) {
        return TICKCLOCK_OK;
    }
    const uint32_t cycles = stretch(clk, now);
    int32_t number =
        usage_accumulate_number(false, clk->total_cycles, 0, cycles);

    if (number == TICKCLOCK_OK && usage_is_tracked(clk->running)) {
        number = usage_accumulate(clk->running, cycles);
    }
    if (number == TICKCLOCK_OK) {
        clk->total_cycles += cycles;
        clk->usage0 = stamp_of(now);
    }
    return number;
}

static int32_t sample(struct systick_clock *clk, uint64_t *now)
{
    int32_t number = TICKCLOCK_OK;

    /* Tested before the flag is read, since a refusal would lose it. */
    if ((uint64_t)clk->overflow_cyc + 2 * clk->load - 1 > UINT32_MAX) {
        number = announce(clk);
    }
    if (number == TICKCLOCK_OK) {
        number = read_timer(clk, now);
    }
    if (number == TICKCLOCK_OK) {
        const uint32_t cycles = stretch(clk, *now);

        if (LONG_STRETCH <= cycles && cycles < FALLEN) {
            /* Where a total is full the stretch stays open, for a switch. */
            (void)charge(clk, *now);
        }
    }
    return number;
}

static int32_t change_running(struct systick_clock *clk,
                              struct thread_usage *next)
{
    uint64_t now;
    int32_t number = sample(clk, &now);

    if (number == TICKCLOCK_OK) {
        number = charge(clk, now);
    }
    if (number == TICKCLOCK_OK) {
        clk->running = next;
        clk->usage0 = next != NULL ? stamp_of(now) : 0;
    }
    return number;
}

static int32_t change_tracking(struct systick_clock *clk,
                               struct thread_usage *thread, bool track)
{
    uint64_t now;
    int32_t number = sample(clk, &now);

    if (number != TICKCLOCK_OK || usage_is_tracked(thread) == track) {
        return number;
    }
    /* Asked first: where the windows are full the stretch stays open. */
    if (track) {
        number = usage_enable_number(thread->track_usage, thread->total_cycles,
                                     thread->num_windows);
    }
    if (number == TICKCLOCK_OK && thread == clk->running) {
        number = charge(clk, now);
    }
    if (number == TICKCLOCK_OK) {
        number = track ? usage_enable(thread) : usage_disable(thread);
    }
    return number;
}

/* ---- What firmware calls ---- */

int32_t systick_clock_start(struct systick_clock *clk,
                            struct systick_registers *timer, uint32_t load,
                            uint32_t cycles_per_tick)
{
    /* the value 0 is refused where the period itself is */
    if (counter_value_number(0, load) != TICKCLOCK_OK || cycles_per_tick == 0) {
        return TICKCLOCK_EINVAL;
    }
    const uint32_t was = systick_clock_mask();

    *clk = (struct systick_clock){ .timer = timer,
                                   .load = load,
                                   .cycles_per_tick = cycles_per_tick };
    timer->CTRL = 0;
    timer->LOAD = load - 1; /* as the value 0 lasts a cycle too */
    timer->VAL = 0;         /* a write clears the value and COUNTFLAG */
    timer->CTRL = CTRL_ENABLE | CTRL_TICKINT | CTRL_CLKSOURCE;
    systick_clock_restore(was);
    return TICKCLOCK_OK;
}

int32_t systick_clock_sample(struct systick_clock *clk, uint64_t *now)
{
    const uint32_t was = systick_clock_mask();
    const int32_t number = sample(clk, now);

    systick_clock_restore(was);
    return number;
}

int32_t systick_clock_announce(struct systick_clock *clk, uint64_t *ticks)
{
    const uint32_t was = systick_clock_mask();
    const int32_t number = announce(clk);

    if (number == TICKCLOCK_OK) {
        *ticks = clk->ticks_kept;
        clk->ticks_kept = 0;
    }
    systick_clock_restore(was);
    return number;
}

int32_t systick_clock_switch(struct systick_clock *clk,
                             struct thread_usage *next)
{
    const uint32_t was = systick_clock_mask();
    const int32_t number = change_running(clk, next);

    systick_clock_restore(was);
    return number;
}

int32_t systick_clock_enable(struct systick_clock *clk,
                             struct thread_usage *thread)
{
    const uint32_t was = systick_clock_mask();
    const int32_t number = change_tracking(clk, thread, true);

    systick_clock_restore(was);
    return number;
}

int32_t systick_clock_disable(struct systick_clock *clk,
                              struct thread_usage *thread)
{
    const uint32_t was = systick_clock_mask();
    const int32_t number = change_tracking(clk, thread, false);

    systick_clock_restore(was);
    return number;
}

uint64_t systick_clock_total(const struct systick_clock *clk)
{
    const uint32_t was = systick_clock_mask();
    const uint64_t total = clk->total_cycles;

    systick_clock_restore(was);
    return total;
}

struct thread_usage systick_clock_usage(const struct thread_usage *thread)
{
    const uint32_t was = systick_clock_mask();
    const struct thread_usage usage = *thread;

    systick_clock_restore(was);
    return usage;
}
