/* SPDX-License-Identifier: Apache-2.0 */
/*
 * tickclock.h: the arithmetic of a tick clock over a timer that counts down,
 * and of a thread's usage record, for C firmware. Link with libtickclock.a,
 * which is made for Cortex-M (make firmware) and for x86-64 (make).
 * firmware/example has a driver for SysTick.
 *
 * There is no state, no allocation and no lock. The answer depends on the
 * arguments alone, so each function is safe from interrupt context and from
 * several threads at once; one that is lent a record changes that record and
 * nothing else. Any number is allowed: a function tests its arguments for
 * itself and refuses with a number what it can't answer.
 *
 * Each calculation below, a leaf, has several functions that take the same
 * arguments:
 *
 *   LEAF_number  TICKCLOCK_OK (0) where the leaf accepts, else the number of
 *                the first refusal that applies, in the order listed;
 *   LEAF_field   one field of the answer, 0 where the leaf refuses.
 *
 * Test the number first. A field of 0 may be an answer or a refusal, and only
 * the number tells which. This holds for changes to a thread record too: where
 * a change is refused the record stays unchanged, so keep the old one and
 * don't store the zeros.
 *
 * Take every field before storing any, so that all are asked for with the same
 * arguments:
 *
 *   if (usage_enable_number(track, total, windows) == TICKCLOCK_OK) {
 *       uint32_t new_track = usage_enable_track_usage(track, total, windows);
 *       uint32_t new_windows = usage_enable_num_windows(track, total, windows);
 *       track = new_track;
 *       windows = new_windows;
 *   }
 *
 * Flags are uint32_t. As an argument 0 is clear and anything else is set; as a
 * result a flag is 0 or 1.
 *
 * Units:
 *
 *   cycles          cycles of the timer's clock.
 *   ticks           spans of cycles_per_tick cycles each.
 *   counter values  the timer's value register, with a raw 0 read as load.
 *                   They run from load down to 1, then to load again.
 *   load            the period: cycles from wrap to wrap, 2 to
 *                   TICKCLOCK_SYSTICK_MAX_LOAD. The reload register holds
 *                   load - 1. Of the functions below, counter_value alone
 *                   tests load against these bounds.
 *   stamps          the low 32 bits of a time in cycles, with 1 in place of 0,
 *                   since the stamp 0 means stopped.
 */
#ifndef TICKCLOCK_H
#define TICKCLOCK_H

#include <stdbool.h>
#include <stdint.h>

#ifdef __cplusplus
extern "C" {
#endif

/*
 * The version, a byte each for major, minor and patch: 1.0.0. A major one
 * changes an answer or a record's layout, a minor one adds, and a patch does
 * neither.
 */
#define TICKCLOCK_VERSION 0x010000

/*
 * The numbers that the functions below answer. They are this library's own: a
 * C library's <errno.h> may give the same names other values.
 */
#define TICKCLOCK_OK 0             /* accepted */
#define TICKCLOCK_EINVAL (-22)     /* an argument that can't be */
#define TICKCLOCK_EOVERFLOW (-139) /* a result that would not fit */

/*
 * The other numbers of the tick clock and its ledger. No function below answers
 * them.
 */
#define TICKCLOCK_ENOENT (-2)     /* nothing is set up yet */
#define TICKCLOCK_EBADF (-9)      /* no such thread */
#define TICKCLOCK_EAGAIN (-11)    /* announce first, then try again */
#define TICKCLOCK_ENOSPC (-28)    /* no room */
#define TICKCLOCK_EALREADY (-114) /* done already, or under way */

/* The largest value that the timer's 24-bit register holds. */
#define TICKCLOCK_SYSTICK_MAX_LOAD 16777215u

/* ---- The timer ---- */

/*
 * systick_elapsed_cycles: the cycles between two counter values. It is the true
 * count where fewer than load cycles went by, wrap or no wrap.
 *
 *   cycles = last_count - current_count         if last_count >= current_count
 *            last_count + load - current_count  otherwise
 *
 * last_count     the earlier counter value
 * current_count  the later counter value
 * load           the period, in cycles
 *
 * Refused:
 *   TICKCLOCK_EINVAL  last_count or current_count is above load
 * Where refused, cycles is 0.
 */
int32_t systick_elapsed_cycles_number(uint32_t last_count,
                                      uint32_t current_count, uint32_t load);
uint32_t systick_elapsed_cycles_cycles(uint32_t last_count,
                                       uint32_t current_count, uint32_t load);

/*
 * systick_cycles_to_ticks: the whole ticks within a number of cycles.
 *
 *   ticks = cycles / cycles_per_tick, rounded down
 *
 * cycles           in cycles
 * cycles_per_tick  cycles of one tick
 *
 * Refused:
 *   TICKCLOCK_EINVAL  cycles_per_tick is 0
 * Where refused, ticks is 0.
 */
int32_t systick_cycles_to_ticks_number(uint64_t cycles,
                                       uint32_t cycles_per_tick);
uint64_t systick_cycles_to_ticks_ticks(uint64_t cycles,
                                       uint32_t cycles_per_tick);

/*
 * systick_ticks_to_cycles: the cycles of a number of ticks.
 *
 *   cycles = ticks * cycles_per_tick
 *
 * ticks            in ticks
 * cycles_per_tick  cycles of one tick; 0 is accepted and gives 0 cycles
 *
 * Refused:
 *   TICKCLOCK_EOVERFLOW  the product is above 2^64 - 1
 * Where refused, cycles is 0.
 */
int32_t systick_ticks_to_cycles_number(uint64_t ticks,
                                       uint32_t cycles_per_tick);
uint64_t systick_ticks_to_cycles_cycles(uint64_t ticks,
                                        uint32_t cycles_per_tick);

/*
 * systick_max_ticks: the most ticks to program the timer for at once.
 *
 *   q     = TICKCLOCK_SYSTICK_MAX_LOAD / cycles_per_tick, rounded down
 *   ticks = 0 if q is 0, else q - 1
 *
 * cycles_per_tick  cycles of one tick
 *
 * Refused:
 *   TICKCLOCK_EINVAL  cycles_per_tick is 0
 * Where refused, ticks is 0, as it also is where accepted with q 0 or 1.
 */
int32_t systick_max_ticks_number(uint32_t cycles_per_tick);
uint32_t systick_max_ticks_ticks(uint32_t cycles_per_tick);

/*
 * systick_elapsed_decide: from one sample of the timer, whether it wrapped, and
 * the cycles since the cycle count was last brought up to date.
 *
 *   wrap_detected    = 1 if countflag is set or val1 < val2, else 0
 *   new_overflow_cyc = overflow_cyc + load on a wrap, else overflow_cyc
 *   elapsed          = load - val2 + new_overflow_cyc
 *
 * val1          counter value read before the flag
 * val2          counter value read after the flag
 * countflag     the timer's COUNTFLAG (flag)
 * load          the period, in cycles
 * overflow_cyc  cycles of the wraps counted since that update
 *
 * The time of the sample is the cycle count plus elapsed. It is the true time
 * where these hold, and else may be short of it by whole periods:
 *   - fewer than load cycles pass from the reading of val1 to that of val2;
 *   - at most one wrap comes between the val2 of one sample and the next, so
 *     sample at least once a period;
 *   - on a wrap, none comes between val2 and the read that clears COUNTFLAG.
 * A raw 0 is not refused, but may put the time a period ahead: read it as
 * load first, for val1 and val2 (counter_value, below).
 *
 * On a wrap, read COUNTFLAG once more only to clear it, or the next sample may
 * count the same wrap again. Ask for wrap_detected alone before that read, and
 * for the rest after it, so that it comes soon after val2. Where accepted, store
 * new_overflow_cyc as overflow_cyc.
 *
 * Refused, in this order:
 *   TICKCLOCK_EINVAL     val2 is above load
 *   TICKCLOCK_EOVERFLOW  load - val2 + overflow_cyc + load is above 2^32 - 1,
 *                        wrap or no wrap
 * Where refused, all three fields are 0. val1 above load is not refused.
 *
 * Reading COUNTFLAG clears it, so a sample that is refused afterwards has lost
 * the flag. With val2 from 1 to load no sample is refused while
 * overflow_cyc + 2 * load - 1 is at most 2^32 - 1: test that, in 64 bits,
 * before reading the flag, and announce first where it fails.
 */
int32_t systick_elapsed_decide_number(uint32_t val1, uint32_t val2,
                                      uint32_t countflag, uint32_t load,
                                      uint32_t overflow_cyc);
uint32_t systick_elapsed_decide_wrap_detected(uint32_t val1, uint32_t val2,
                                              uint32_t countflag, uint32_t load,
                                              uint32_t overflow_cyc);
uint32_t systick_elapsed_decide_new_overflow_cyc(uint32_t val1, uint32_t val2,
                                                 uint32_t countflag,
                                                 uint32_t load,
                                                 uint32_t overflow_cyc);
uint32_t systick_elapsed_decide_elapsed(uint32_t val1, uint32_t val2,
                                        uint32_t countflag, uint32_t load,
                                        uint32_t overflow_cyc);

/*
 * counter_value: the counter value of what the value register holds. The
 * register shows 0 in the one cycle in which the value is the period.
 *
 *   value = load if raw is 0, else raw
 *
 * raw   the value register
 * load  the period, in cycles
 *
 * Refused:
 *   TICKCLOCK_EINVAL  load is below 2 or above TICKCLOCK_SYSTICK_MAX_LOAD
 *   TICKCLOCK_EINVAL  raw is not below load
 * Where refused, value is 0.
 */
int32_t counter_value_number(uint32_t raw, uint32_t load);
uint32_t counter_value_value(uint32_t raw, uint32_t load);

/*
 * systick_announce_decide: the whole ticks that have come since the last
 * announcement, and the counts after this one.
 *
 *   new_cycle_count      = cycle_count + overflow_cyc
 *   dticks               = (new_cycle_count - announced_cycles)
 *                          / cycles_per_tick, rounded down
 *   new_announced_cycles = announced_cycles + dticks * cycles_per_tick
 *
 * cycle_count       cycles counted at the last update
 * announced_cycles  the cycles of all ticks announced so far
 * overflow_cyc      cycles of the wraps counted since that update
 * cycles_per_tick   cycles of one tick
 *
 * dticks is in ticks, the counts in cycles. Where accepted, store the two
 * counts and set overflow_cyc to 0.
 *
 * Refused, in this order:
 *   TICKCLOCK_EINVAL     cycles_per_tick is 0
 *   TICKCLOCK_EOVERFLOW  new_cycle_count is above 2^64 - 1
 *   TICKCLOCK_EINVAL     announced_cycles is above new_cycle_count
 *   TICKCLOCK_EOVERFLOW  dticks is above 2^32 - 1
 * Where refused, all three fields are 0.
 */
int32_t systick_announce_decide_number(uint64_t cycle_count,
                                       uint64_t announced_cycles,
                                       uint32_t overflow_cyc,
                                       uint32_t cycles_per_tick);
uint32_t systick_announce_decide_dticks(uint64_t cycle_count,
                                        uint64_t announced_cycles,
                                        uint32_t overflow_cyc,
                                        uint32_t cycles_per_tick);
uint64_t systick_announce_decide_new_cycle_count(uint64_t cycle_count,
                                                 uint64_t announced_cycles,
                                                 uint32_t overflow_cyc,
                                                 uint32_t cycles_per_tick);
uint64_t systick_announce_decide_new_announced_cycles(uint64_t cycle_count,
                                                      uint64_t announced_cycles,
                                                      uint32_t overflow_cyc,
                                                      uint32_t cycles_per_tick);

/*
 * ---- A thread's usage ----
 *
 * A thread record is three numbers, which the caller keeps:
 *
 *   track_usage   whether the thread is tracked (flag)
 *   total_cycles  the cycles added up so far
 *   num_windows   how often tracking was set
 */

/*
 * usage_enable: the record with tracking set.
 *
 *   track_usage  = 1
 *   total_cycles = total_cycles
 *   num_windows  = num_windows if track_usage was set, else num_windows + 1
 *
 * Refused:
 *   TICKCLOCK_EOVERFLOW  track_usage is clear and num_windows is 2^32 - 1
 * Where refused, the record stays unchanged, and all three fields are 0: test
 * the number first.
 */
int32_t usage_enable_number(uint32_t track_usage, uint64_t total_cycles,
                            uint32_t num_windows);
uint32_t usage_enable_track_usage(uint32_t track_usage, uint64_t total_cycles,
                                  uint32_t num_windows);
uint64_t usage_enable_total_cycles(uint32_t track_usage, uint64_t total_cycles,
                                   uint32_t num_windows);
uint32_t usage_enable_num_windows(uint32_t track_usage, uint64_t total_cycles,
                                  uint32_t num_windows);

/*
 * usage_disable: the record with tracking cleared; its history stays.
 *
 *   track_usage  = 0
 *   total_cycles = total_cycles
 *   num_windows  = num_windows
 *
 * Never refused: the number is always TICKCLOCK_OK.
 */
int32_t usage_disable_number(uint32_t track_usage, uint64_t total_cycles,
                             uint32_t num_windows);
uint32_t usage_disable_track_usage(uint32_t track_usage, uint64_t total_cycles,
                                   uint32_t num_windows);
uint64_t usage_disable_total_cycles(uint32_t track_usage, uint64_t total_cycles,
                                    uint32_t num_windows);
uint32_t usage_disable_num_windows(uint32_t track_usage, uint64_t total_cycles,
                                   uint32_t num_windows);

/*
 * usage_accumulate: the record with cycles added, tracked or not.
 *
 *   track_usage  = track_usage, as 0 or 1
 *   total_cycles = total_cycles + cycles
 *   num_windows  = num_windows
 *
 * cycles  the cycles to add
 *
 * Refused:
 *   TICKCLOCK_EOVERFLOW  the sum is above 2^64 - 1
 * Where refused, the record stays unchanged, and all three fields are 0: test
 * the number first.
 */
int32_t usage_accumulate_number(uint32_t track_usage, uint64_t total_cycles,
                                uint32_t num_windows, uint32_t cycles);
uint32_t usage_accumulate_track_usage(uint32_t track_usage,
                                      uint64_t total_cycles,
                                      uint32_t num_windows, uint32_t cycles);
uint64_t usage_accumulate_total_cycles(uint32_t track_usage,
                                       uint64_t total_cycles,
                                       uint32_t num_windows, uint32_t cycles);
uint32_t usage_accumulate_num_windows(uint32_t track_usage,
                                      uint64_t total_cycles,
                                      uint32_t num_windows, uint32_t cycles);

/*
 * ---- A thread's usage, changed in place ----
 *
 * The same changes on a record that the caller keeps and lends for the call.
 * A pointer is to a record, not NULL, that nothing else uses during the call.
 * track_usage is a bool, and holds 0 or 1.
 *
 * None of them knows which thread runs, or since when. Of the running one,
 * first add the cycles since its stamp, if it was tracked, and take a new stamp
 * (firmware/example does).
 */
struct thread_usage {
    bool track_usage;
    uint64_t total_cycles;
    uint32_t num_windows;
};

/* A fresh record: untracked with zeros. */
#define THREAD_USAGE_IDLE { false, 0, 0 }

/*
 * Each answers TICKCLOCK_OK and changes the record as above, or answers the
 * number and leaves the record as it was:
 *
 *   usage_enable      sets tracking and opens a window, unless it was set;
 *                     TICKCLOCK_EOVERFLOW: untracked and num_windows is
 *                     2^32 - 1
 *   usage_disable     clears tracking; never refused
 *   usage_accumulate  adds cycles to total_cycles; TICKCLOCK_EOVERFLOW: the
 *                     sum is above 2^64 - 1
 */
int32_t usage_enable(struct thread_usage *thread);
int32_t usage_disable(struct thread_usage *thread);
int32_t usage_accumulate(struct thread_usage *thread, uint32_t cycles);

/* Whether the record's thread is tracked. */
bool usage_is_tracked(const struct thread_usage *thread);

/*
 * usage_average_cycles: the cycles of a window on average.
 *
 *   cycles = total_cycles / num_windows, rounded down; 0 if num_windows is 0
 *
 * Never refused: the number is always TICKCLOCK_OK.
 */
int32_t usage_average_cycles_number(uint64_t total_cycles,
                                    uint32_t num_windows);
uint64_t usage_average_cycles_cycles(uint64_t total_cycles,
                                     uint32_t num_windows);

/*
 * usage_elapsed_cycles: the cycles from one stamp to another, right across a
 * wrap of the 32-bit stamp.
 *
 *   cycles = now - usage0, modulo 2^32
 *
 * now     the later stamp
 * usage0  the earlier stamp
 *
 * As a stamp has 1 in place of 0, the answer may be off by one cycle either
 * way. That holds up to 2^32 - 2 cycles and no further: the stamps of the times
 * 1 and 2^32 are equal, and their difference is 0.
 *
 * Never refused: the number is always TICKCLOCK_OK.
 */
int32_t usage_elapsed_cycles_number(uint32_t now, uint32_t usage0);
uint32_t usage_elapsed_cycles_cycles(uint32_t now, uint32_t usage0);

/*
 * usage_is_tracked: whether a record's thread is tracked.
 *
 *   tracked = 1 if track_usage is set, else 0
 *
 * Never refused: the number is always TICKCLOCK_OK.
 */
int32_t usage_is_tracked_number(uint32_t track_usage, uint64_t total_cycles,
                                uint32_t num_windows);
uint32_t usage_is_tracked_tracked(uint32_t track_usage, uint64_t total_cycles,
                                  uint32_t num_windows);

/*
 * usage_new_idle: a fresh thread record, untracked with zeros.
 *
 *   track_usage = 0, total_cycles = 0, num_windows = 0
 *
 * Never refused: the number is always TICKCLOCK_OK.
 */
int32_t usage_new_idle_number(void);
uint32_t usage_new_idle_track_usage(void);
uint64_t usage_new_idle_total_cycles(void);
uint32_t usage_new_idle_num_windows(void);

/*
 * usage_sys_enable_decide: whether enabling for the whole system has work to
 * do.
 *
 *   apply = 1 if current_tracking is clear, else 0
 *
 * current_tracking  whether the system is tracked now (flag)
 *
 * Never refused: the number is always TICKCLOCK_OK.
 */
int32_t usage_sys_enable_decide_number(uint32_t current_tracking);
uint32_t usage_sys_enable_decide_apply(uint32_t current_tracking);

/*
 * usage_sys_disable_decide: whether disabling for the whole system has work to
 * do.
 *
 *   apply = 1 if current_tracking is set, else 0
 *
 * current_tracking  whether the system is tracked now (flag)
 *
 * Never refused: the number is always TICKCLOCK_OK.
 */
int32_t usage_sys_disable_decide_number(uint32_t current_tracking);
uint32_t usage_sys_disable_decide_apply(uint32_t current_tracking);

/*
 * usage_start_decide: what starting a thread does besides taking the stamp.
 *
 *   record_start = 1 if track_usage is set: the thread's window starts anew
 *                  too; else 0: only the stamp is taken
 *
 * track_usage  whether the thread is tracked (flag)
 *
 * Never refused: the number is always TICKCLOCK_OK.
 */
int32_t usage_start_decide_number(uint32_t track_usage);
uint32_t usage_start_decide_record_start(uint32_t track_usage);

/*
 * usage_stop_decide: whether stopping a thread has cycles to add.
 *
 *   accumulate = 1 if usage0 is not 0, else 0
 *
 * usage0  the stamp of the start; 0 says that there was none
 *
 * Never refused: the number is always TICKCLOCK_OK.
 */
int32_t usage_stop_decide_number(uint32_t usage0);
uint32_t usage_stop_decide_accumulate(uint32_t usage0);

#ifdef __cplusplus
}
#endif

#endif
