/*
 * systick.c: holds the example driver, on QEMU's SysTick, to two other timers
 * of the board mps2-an385 at every sample. All three count the same clock.
 *
 * It writes a line for each period. How long an instruction takes is the
 * emulator's to choose (-icount shift=N), so the same program stands for a fast
 * processor and for a slow one.
 */
#include "bench.h"
#include "timers.h"

#define SAMPLES 6000
#define SWITCHES 500

/* A tick that no period is a multiple of. */
#define TICK 11

static struct systick_clock clk;
static struct thread_usage threads[2];

/* ---- What is checked ---- */

static uint32_t lost;     /* cycles that late samples lost, in whole periods */
static int32_t least;     /* the clock less another timer, lost ones apart */
static int32_t greatest;

/*
 * Of a sample that is not late the clock shows what another timer shows. Of a
 * late one it may be short of that by whole periods, and never ahead.
 */
static void compare(uint32_t shown, uint32_t other, bool fair)
{
    int32_t ahead = (int32_t)(shown + lost - other);

    while (!fair && ahead < -SLACK) {
        ahead += (int32_t)clk.load;
        lost += clk.load;
    }
    if (ahead < least) {
        least = ahead;
    }
    if (ahead > greatest) {
        greatest = ahead;
    }
    check(-SLACK <= ahead && ahead <= SLACK);
}

/* ---- Waiting ---- */

static uint32_t begun; /* when the last sample began, by the dual timer */
static uint32_t cost;  /* the most cycles that a wait and a sample take */

/* Sleeps so many cycles, at least 1. The emulator leaps over them. */
static void sleep(uint32_t cycles)
{
    TIMER2_CONTROL = 0;
    TIMER2_LOAD = cycles;
    TIMER2_CONTROL =
        TIMER_ENABLE | TIMER_INTERRUPT | TIMER_32_BITS | TIMER_ONE_SHOT;
    /* Interrupts are masked but wake us, and SysTick's exception does too. */
    do {
        ICSR = PENDSTCLR;
        __asm__ volatile("wfi");
    } while ((TIMER2_RIS & 1) == 0);
    TIMER2_INTCLR = 1;
    NVIC_ICPR = DUAL_TIMER_IRQ;
}

/*
 * Waits before a sample, no longer than lets it end within a period of the last
 * one. Three waits of four end just before a wrap, if that is near enough, so
 * that the wrap falls anywhere in the sample. Answers the cycles slept.
 */
static uint32_t wait(void)
{
    const uint32_t needed = dual() - begun + cost + SLACK;
    const uint32_t most = needed < clk.load ? clk.load - needed : 0;
    const uint32_t random = next();
    uint32_t cycles = SYSTICK->VAL - (random >> 2) % (cost + 2);

    if (random % 4 == 0 || cycles > clk.load) {
        cycles = most > 0 ? next() % most : 0;
    }
    if (cycles > most) {
        cycles = most;
    }
    if (cycles > 0) {
        sleep(cycles);
    }
    /* and some instructions more, which may be part of a cycle */
    for (uint32_t i = next() % 32; i > 0; i--) {
        __asm__ volatile("");
    }
    return cycles;
}

/* A sample is late where two wraps may have come since the one before. */
static bool in_time(uint32_t before)
{
    return dual() - before + SLACK < clk.load;
}

/* ---- Parts of a bench ---- */

static void start(uint32_t load)
{
    check(systick_clock_start(&clk, SYSTICK, load, TICK) == TICKCLOCK_OK);
    begun = dual();
}

/* Never inlined, so that the dual timer is always read as long before. */
__attribute__((noinline)) static void timed_sample(uint64_t *now)
{
    begun = dual();
    check(systick_clock_sample(&clk, now) == TICKCLOCK_OK);
}

__attribute__((noinline)) static void timed_switch(struct thread_usage *to)
{
    begun = dual();
    check(systick_clock_switch(&clk, to) == TICKCLOCK_OK);
}

/* Answers the ticks, and checks them against the last reading. */
static uint64_t announce(uint64_t ticks, uint64_t now)
{
    uint64_t more = 0;

    check(systick_clock_announce(&clk, &more) == TICKCLOCK_OK);
    check(clk.announced_cycles == (ticks + more) * TICK);
    check(clk.cycle_count - clk.announced_cycles < TICK);
    check(now - clk.cycle_count < clk.load);
    return more;
}

/* Whether there is time to announce between two samples. */
static bool can_announce(void)
{
    return clk.load / 8 > cost;
}

/* Finds the cost: that of a switch, which is a sample and more, and a margin. */
static void measure(uint32_t load)
{
    threads[0] = (struct thread_usage){ true, 0, 1 };
    cost = 0;
    start(load);
    for (int i = 0; i < 100; i++) {
        begun = dual();
        const uint32_t slept = wait();
        check(systick_clock_switch(&clk, &threads[0]) == TICKCLOCK_OK);
        const uint32_t taken = dual() - begun - slept;

        if (taken > cost) {
            cost = taken;
        }
    }
    cost += cost / 8 + 1;
}

/* Samples, and says what came of it. */
static void sample(uint32_t load)
{
    const uint32_t before_start = dual();
    uint32_t dual0 = 0;
    uint32_t fpga0 = 0;
    uint32_t now0 = 0;
    uint64_t now = 0;
    uint64_t ticks = 0;
    uint32_t late = 0;

    lost = 0;
    start(load);
    const uint32_t after_start = begun;

    for (int i = 0; i < SAMPLES; i++) {
        wait();
        const uint32_t before = begun;
        const uint64_t last = now;
        const uint32_t fpga = FPGA_COUNTER;
        begun = dual();
        const int32_t number = systick_clock_sample(&clk, &now);
        const bool fair = in_time(before);

        if (!fair) {
            late++;
        }
        check(number == TICKCLOCK_OK && now >= last);
        if (i == 0) {
            dual0 = begun;
            fpga0 = fpga;
            now0 = (uint32_t)now;
            check(!fair || (now0 + SLACK >= begun - after_start &&
                            now0 <= dual() - before_start));
        }
        compare((uint32_t)now - now0, begun - dual0, fair);
        compare((uint32_t)now - now0, fpga - fpga0, fair);
        if (next() % 8 == 0 && can_announce()) {
            ticks += announce(ticks, now);
        }
    }
    announce(ticks, now);
    /* Such a period leaves time for a sample at every shift. */
    check(load < 1000 || late == 0);

    add("period ");
    add_number((int32_t)load);
    add(": ");
    add_number(SAMPLES);
    add(" samples, ");
    add_number((int32_t)(now / load));
    add(" wraps, ");
    add_number((int32_t)late);
    add(" late, ");
    add_number((int32_t)(lost / load));
    add(" periods lost; ");
}

/* Two threads take turns, and one of them is tracked. */
static void switch_threads(uint32_t load)
{
    struct thread_usage *running = NULL;

    threads[0] = (struct thread_usage)THREAD_USAGE_IDLE;
    threads[1] = (struct thread_usage)THREAD_USAGE_IDLE;
    check(usage_enable(&threads[0]) == TICKCLOCK_OK);
    start(load);
    for (int i = 0; i < SWITCHES; i++) {
        const uint32_t draw = next() % 3;
        struct thread_usage *const next_one = draw < 2 ? &threads[draw] : NULL;
        const uint64_t was = running != NULL ? running->total_cycles : 0;

        wait();
        const uint32_t before = begun;
        timed_switch(next_one);
        const bool fair = in_time(before);

        if (running == &threads[0]) {
            lost = 0;
            compare((uint32_t)(running->total_cycles - was), begun - before,
                    fair);
        }
        running = next_one;
        if (can_announce()) {
            uint64_t more;

            check(systick_clock_announce(&clk, &more) == TICKCLOCK_OK);
        }
    }
    check(threads[1].total_cycles == 0 && threads[0].num_windows == 1);
}

/*
 * With the largest period 255 wraps can be counted. The sample after that
 * announces for itself and goes on: each reading is true, and the next
 * announcement hands out every tick.
 */
static void count_wraps(void)
{
    const uint32_t load = TICKCLOCK_SYSTICK_MAX_LOAD;
    uint64_t now0 = 0;
    uint64_t now = 0;

    lost = 0;
    start(load);
    sleep(load / 2);
    timed_sample(&now0);
    const uint32_t dual0 = begun;
    for (int i = 0; i < 300; i++) {
        const uint64_t kept = clk.ticks_kept;

        sleep(load - cost);
        timed_sample(&now);
        /* The one that announces comes later than it was timed. */
        if (clk.ticks_kept == kept) {
            compare((uint32_t)(now - now0), begun - dual0, true);
        }
    }
    check(clk.ticks_kept > 0);
    announce(0, now);
}

/* A thread that runs on for more than 2^32 cycles is charged for all. */
static void run_on(void)
{
    const uint32_t load = TICKCLOCK_SYSTICK_MAX_LOAD;
    uint64_t now;

    lost = 0;
    threads[0] = (struct thread_usage){ true, 0, 1 };
    start(load);
    timed_switch(&threads[0]);
    const uint32_t dual0 = begun;
    for (int i = 0; i < 300; i++) {
        sleep(load - cost);
        timed_sample(&now);
    }
    timed_switch(NULL);
    const uint64_t charged = systick_clock_usage(&threads[0]).total_cycles;

    compare((uint32_t)charged, begun - dual0, true);
    check(charged >> 32 == 1 && charged == systick_clock_total(&clk));
}

/* What the driver refuses besides. */
static void refuse(void)
{
    uint64_t now;
    struct thread_usage full = { true, UINT64_MAX, 1 };

    check(systick_clock_start(&clk, SYSTICK, 1, TICK) == TICKCLOCK_EINVAL);
    check(systick_clock_start(&clk, SYSTICK, TICKCLOCK_SYSTICK_MAX_LOAD + 1,
                              TICK) == TICKCLOCK_EINVAL);
    check(systick_clock_start(&clk, SYSTICK, 1000, 0) == TICKCLOCK_EINVAL);

    start(100000);
    check(systick_clock_switch(&clk, &full) == TICKCLOCK_OK);
    sleep(100);
    check(systick_clock_switch(&clk, NULL) == TICKCLOCK_EOVERFLOW);
    check(clk.running == &full && full.total_cycles == UINT64_MAX);

    SYSTICK->LOAD = 200000;
    SYSTICK->VAL = 0;
    sleep(100);
    check(systick_clock_sample(&clk, &now) == TICKCLOCK_EINVAL);
}

static void bench(uint32_t load)
{
    least = greatest = 0;
    measure(load);
    sample(load);
    switch_threads(load);
    if (load == TICKCLOCK_SYSTICK_MAX_LOAD) {
        count_wraps();
        run_on();
        refuse();
    }
    add("cycles off: ");
    add_number(least);
    add(" to ");
    add_number(greatest);
    add("; ");
    end_checks();
}

int main(void)
{
    __asm__ volatile("cpsid i");
    start_dual();
    FPGA_PRESCALE = 0;
    NVIC_ISER = DUAL_TIMER_IRQ;

    bench(64);
    bench(1000);
    bench(TICKCLOCK_SYSTICK_MAX_LOAD);
    return 0;
}
