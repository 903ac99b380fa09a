/* SPDX-License-Identifier: Apache-2.0 */
/*
 * systick_clock.h: a tick clock over the SysTick timer of a Cortex-M, with the
 * cycles of threads. An example of how firmware calls the library of
 * tickclock.h.
 *
 * Those that answer an int32_t answer TICKCLOCK_OK or the number of a refusal.
 * A refusal writes nothing through now or ticks, and leaves thread records and
 * totals as its sample left them.
 *
 * Interrupts. A sample clears the timer's flag, so no two may overlap. Each
 * function masks interrupts for itself and puts the mask back as it was
 * (systick_port.h), so that a main loop and any handlers may call them, on one
 * processor and in privileged mode; not an NMI or a fault handler, which no
 * mask keeps out. An announcement divides four times, so a call may mask them
 * for some 4000 instructions of an M0, though 1000 is usual.
 *
 * What a lost wrap costs. After each wrap a sample has to begin and end before
 * the next one: the handler's latency and a sample together stay below the
 * period. Otherwise a wrap may be lost, and the clock is a period short from
 * there on. The next reading may be below the last one, by less than a period;
 * a switch before the clock has caught up then takes the fall for nearly 2^32
 * cycles, and charges them.
 *
 * The flag, COUNTFLAG of SysTick's CTRL, is the clock's alone. Whatever else
 * reads CTRL clears it, and the wrap may be lost as above. So may a debugger
 * that shows the register; that depends on how its probe reads. Keep SysTick
 * out of its register view while the clock runs.
 */
#ifndef SYSTICK_CLOCK_H
#define SYSTICK_CLOCK_H

#include "tickclock.h"

#ifdef __cplusplus
extern "C" {
#endif

/* SysTick's registers, named as in CMSIS. A Cortex-M has them at 0xE000E010. */
struct systick_registers {
    volatile uint32_t CTRL;
    volatile uint32_t LOAD;
    volatile uint32_t VAL;
};

/* Kept by the functions below. Look at it through them. */
struct systick_clock {
    struct systick_registers *timer;
    uint32_t load;             /* the period, in cycles */
    uint32_t cycles_per_tick;
    uint64_t cycle_count;      /* at the last announcement */
    uint64_t announced_cycles; /* of all ticks announced so far */
    uint64_t ticks_kept;       /* announced, and not handed out yet */
    uint64_t total_cycles;     /* of all closed stretches, tracked or not */
    struct thread_usage *running;
    uint32_t overflow_cyc;     /* of the wraps counted since cycle_count */
    uint32_t usage0;           /* running's stamp; 0 says that none runs */
};

/*
 * Starts the timer, and the clock at 0. SysTick's exception then comes at each
 * wrap: sample and announce there.
 *
 * Choose a period well above the time for which interrupts are ever masked, by
 * this driver (above) or by others: no sample is taken meanwhile.
 *
 * Started again, the clock is at 0 again: no thread runs, the total is 0, and
 * ticks that were not handed out and cycles since the last switch are gone.
 * Thread records stay as they are. To keep what is open, switch to NULL and
 * then announce; cycles since the last wrap are gone all the same.
 *   TICKCLOCK_EINVAL  load is below 2 or above TICKCLOCK_SYSTICK_MAX_LOAD, or
 *                     cycles_per_tick is 0
 */
int32_t systick_clock_start(struct systick_clock *clk,
                            struct systick_registers *timer, uint32_t load,
                            uint32_t cycles_per_tick);

/*
 * The cycles since the start. Sample often enough that no wrap is lost (above).
 *
 * After too many wraps without an announcement there is no room for another
 * (01's -11). The sample then announces for itself and goes on, and the next
 * systick_clock_announce hands those ticks out too.
 *   TICKCLOCK_EINVAL  someone else has set the timer: start again
 */
int32_t systick_clock_sample(struct systick_clock *clk, uint64_t *now);

/*
 * The ticks that have come since they were last handed out, by the last sample.
 * 64 bits, since those that a sample announced for itself are among them. Never
 * refused, where nobody else has changed the clock.
 */
int32_t systick_clock_announce(struct systick_clock *clk, uint64_t *ticks);

/*
 * ---- Threads ----
 *
 * A stretch is the time for which a thread runs on, from one stamp to the next.
 * Stamps have 32 bits, so only up to 2^32 - 2 cycles can be told of one (9 s at
 * 480 MHz). A thread may run for longer: where a stretch has come to 2^31
 * cycles, the next sample, whoever takes it, charges them and takes a new
 * stamp. So a turn above that bound counts as several stretches; it is one turn
 * all the same, and neither the flag nor the windows of its record change.
 * Where a total is too full for that, the stretch stays open, and is short by
 * 2^32 once it has run on so far.
 *
 * As the stamp 0 means stopped, a time whose low 32 bits are 0 has the stamp 1:
 * a stretch that begins or ends there is charged one cycle less or more.
 *
 * A record stays lent while its thread runs, and any sample may change it.
 * Don't call usage_enable, usage_disable or usage_accumulate on it then: they
 * know nothing of the open stretch.
 *
 * The next three sample first, and refuse as a sample does. A thread is a
 * record, and NULL for a switch alone.
 */

/*
 * Charges the running thread, if it is tracked, and lets the next one run, or
 * none (NULL).
 *   TICKCLOCK_EOVERFLOW  a total is full; the thread runs on
 */
int32_t systick_clock_switch(struct systick_clock *clk,
                             struct thread_usage *next);

/*
 * Track a thread from here on, or no longer. If it is the running one, its
 * stretch is closed before and another opened after, so that it is charged for
 * just the cycles that it was tracked. Where the flag is as wanted already,
 * nothing changes.
 *   TICKCLOCK_EOVERFLOW  a total is full, or the count of windows: the record
 *                        and the stretch stay as they are
 */
int32_t systick_clock_enable(struct systick_clock *clk,
                             struct thread_usage *thread);
int32_t systick_clock_disable(struct systick_clock *clk,
                              struct thread_usage *thread);

/*
 * What is charged so far, without a sample: of all closed stretches, and a
 * thread's record. Read here they are whole: a handler's sample can't change
 * them half-way.
 */
uint64_t systick_clock_total(const struct systick_clock *clk);
struct thread_usage systick_clock_usage(const struct thread_usage *thread);

#ifdef __cplusplus
}
#endif

#endif
