/*
 * cost.c: calls of the example driver, the usual ones and the longest.
 * tests/qemu.sh counts their instructions, by a log in which the emulator has a
 * line for each, and goes by this file's main to tell where a call ends.
 */
#include "bench.h"
#include "timers.h"

#define PERIOD 1000

void longest_switch(void);

static struct systick_clock clk;
static struct thread_usage threads[2];

/*
 * A switch after many wraps without an announcement, as the sample finds them,
 * to be divided by a tick of 1; it closes a long stretch too.
 */
__attribute__((noinline)) void longest_switch(void)
{
    (void)systick_clock_switch(&clk, &threads[0]);
}

int main(void)
{
    uint64_t now;
    uint64_t ticks;

    __asm__ volatile("cpsid i");
    if (systick_clock_start(&clk, SYSTICK, PERIOD, PERIOD) != TICKCLOCK_OK ||
        systick_clock_enable(&clk, &threads[0]) != TICKCLOCK_OK ||
        systick_clock_switch(&clk, &threads[0]) != TICKCLOCK_OK) {
        return 1;
    }
    /* Until a wrap, so that the sample below finds it. */
    while ((ICSR & PENDSTSET) == 0) {
    }
    if (systick_clock_sample(&clk, &now) != TICKCLOCK_OK ||
        systick_clock_announce(&clk, &ticks) != TICKCLOCK_OK || ticks != 1 ||
        systick_clock_switch(&clk, &threads[1]) != TICKCLOCK_OK) {
        return 1;
    }
    /* one more than leaves room for a sample */
    clk.overflow_cyc = UINT32_MAX - 2 * PERIOD + 2;
    clk.cycles_per_tick = 1;
    clk.usage0 -= 1u << 31;
    threads[1].track_usage = true;
    longest_switch();
    return 0;
}
