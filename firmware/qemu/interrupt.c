/*
 * interrupt.c: the example driver with SysTick's exception really taken, on the
 * board mps2-an385. The handler samples and announces while the main loop
 * samples and switches, and nothing is masked but by the driver itself.
 *
 * It writes a line for each period.
 */
#include "bench.h"
#include "timers.h"

#define CALLS 40000

/* A tick that no period is a multiple of. */
#define TICK 11

void systick_handler(void);

static struct systick_clock clk;
static struct thread_usage threads[2];

/* The dual timer's value at the clock's 0, and how well that is known. */
static uint32_t origin;
static uint32_t slop;

/* The latest reading that anybody was given, its low 32 bits. */
static volatile uint32_t seen;

/* ---- The handler, with counts of its own: it comes amid other counting ---- */

static volatile bool calling;   /* the main loop is in a call of the driver */
static volatile uint32_t taken; /* exceptions */
static volatile uint32_t amid;  /* of them, those that came in such a call */
static volatile uint32_t wrong; /* of them, those that found something wrong */
static volatile uint64_t ticks; /* handed out */

/*
 * Samples. A reading is not below one that was given before the sample began,
 * and lies where the dual timer was between its beginning and its end.
 */
static bool sample(void)
{
    const uint32_t least = seen;
    const uint32_t before = dual() - origin;
    uint64_t now;

    if (systick_clock_sample(&clk, &now) != TICKCLOCK_OK) {
        return false;
    }
    const uint32_t after = dual() - origin;
    const uint32_t low = (uint32_t)now;

    if ((int32_t)(low - seen) > 0) {
        seen = low;
    }
    return (int32_t)(low - least) >= 0 &&
           low + slop - before <= 2 * slop + after - before;
}

void systick_handler(void)
{
    uint64_t more = 0;

    taken++;
    if (calling) {
        amid++;
    }
    if (!sample() || systick_clock_announce(&clk, &more) != TICKCLOCK_OK) {
        wrong++;
    }
    ticks += more;
}

/* ---- The main loop ---- */

static void start(uint32_t load)
{
    uint64_t now = 0;

    check(systick_clock_start(&clk, SYSTICK, load, TICK) == TICKCLOCK_OK);
    const uint32_t before = dual();
    check(systick_clock_sample(&clk, &now) == TICKCLOCK_OK);
    origin = before - (uint32_t)now;
    slop = dual() - before + SLACK;
    seen = 0;
    taken = amid = wrong = 0;
    ticks = 0;
    threads[0] = threads[1] = (struct thread_usage){ true, 0, 1 };
}

/* Samples and switches at random. */
static void call(void)
{
    const uint32_t draw = next() % 4;

    calling = true;
    if (draw < 2) {
        check(systick_clock_switch(&clk, &threads[draw]) == TICKCLOCK_OK);
    } else {
        check(sample());
    }
    calling = false;
}

/* What was charged is the time that passed, and every tick was handed out. */
static void settle(uint32_t begun)
{
    uint64_t now = 0;
    uint64_t more = 0;

    const uint32_t ended = dual();
    check(systick_clock_switch(&clk, NULL) == TICKCLOCK_OK);
    const uint64_t total = systick_clock_total(&clk);

    check(total + slop - (ended - begun) <= 2 * slop);
    check(total == threads[0].total_cycles + threads[1].total_cycles);
    check(systick_clock_sample(&clk, &now) == TICKCLOCK_OK);
    check(systick_clock_announce(&clk, &more) == TICKCLOCK_OK);
    check((ticks + more) * TICK <= now &&
          now - (ticks + more) * TICK <= clk.load + TICK - 2);
    check(wrong == 0);
}

static void bench(uint32_t load)
{
    start(load);
    const uint32_t begun = dual();
    check(systick_clock_switch(&clk, &threads[0]) == TICKCLOCK_OK);
    __asm__ volatile("cpsie i");
    for (int i = 0; i < CALLS; i++) {
        call();
    }
    __asm__ volatile("cpsid i");
    settle(begun);

    add("period ");
    add_number((int32_t)load);
    add(", interrupts: ");
    add_number(CALLS);
    add(" calls, ");
    add_number((int32_t)taken);
    add(" exceptions, ");
    add_number((int32_t)amid);
    add(" of them amid a call, ");
    add_number((int32_t)wrong);
    add(" wrong; ");
    end_checks();
}

int main(void)
{
    __asm__ volatile("cpsid i");
    start_dual();
    bench(2000);
    bench(50000);
    return 0;
}
