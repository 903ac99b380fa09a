/*
 * vectors.c: calls every function of tickclock.h with numbers drawn from a
 * seed, and writes a line for each call: the function, its arguments and its
 * answer, in hexadecimal but for 01's numbers. The lines of two archives that
 * answer alike are the same bytes.
 */
#include "bench.h"
#include "tickclock.h"

#define ROUNDS 2000

/* The fields of a lent record lie where the archive's code has them. */
#define AT(field, place) (offsetof(struct thread_usage, field) == (place))
typedef char same_layout[AT(track_usage, 0) && AT(total_cycles, 8) &&
                                 AT(num_windows, 16) &&
                                 sizeof(struct thread_usage) == 24
                             ? 1
                             : -1];

/* ---- Numbers: the boundaries often, neighbours of the last one often ---- */

static const uint32_t edges32[] = {
    0,          1,          2,          3,           9,           10,
    11,         254,        255,        256,         12000,       0xfffffe,
    0xffffff,   0x1000000,  0x1000001,  0x7fffffff,  0x80000000,  0x80000001,
    0xfffffff5, 0xfffffff6, 0xfffffffe, 0xffffffff,
};

static const uint64_t edges64[] = {
    0,
    1,
    2,
    9,
    10,
    12000,
    0xfffffffe,
    0xffffffff,
    0x100000000,
    0x100000001,
    0x7fffffffffffffff,
    0x8000000000000000,
    0xfffffffeffffffff,
    0xffffffff00000000,
    0xffffffff00000001,
    0xfffffffffffffffe,
    0xffffffffffffffff,
};

static uint32_t last32;
static uint64_t last64;

/* -1, 0 or 1, for the two sides of a boundary. */
static uint32_t beside(void)
{
    return next() % 3 - 1;
}

static uint32_t draw32(void)
{
    switch (next() % 4) {
    case 0:
        last32 += beside();
        break;
    case 1:
        last32 = next();
        last32 >>= next() % 32;
        break;
    default:
        last32 = edges32[next() % LENGTH(edges32)];
    }
    return last32;
}

static uint64_t draw64(void)
{
    switch (next() % 4) {
    case 0:
        last64 += (uint64_t)(int32_t)beside();
        break;
    case 1:
        last64 = next();
        last64 = last64 << 32 | next();
        last64 >>= next() % 64;
        break;
    default:
        last64 = edges64[next() % LENGTH(edges64)];
    }
    return last64;
}

/* Clear or set, by whichever number. */
static uint32_t draw_flag(void)
{
    return next() % 2 == 0 ? 0 : draw32();
}

/* Half of the numbers lie at a boundary that other arguments make. */
static uint32_t near32(uint32_t boundary)
{
    return next() % 2 == 0 ? boundary + beside() : draw32();
}

static uint64_t near64(uint64_t boundary)
{
    return next() % 2 == 0 ? boundary + (uint64_t)(int32_t)beside() : draw64();
}

/* ---- Lines ---- */

/* The arguments of the calls that follow, kept as they are given. */
static struct {
    uint64_t number[5];
    size_t count;
} given;

static void give(const uint64_t *numbers, size_t count)
{
    given.count = count;
    for (size_t i = 0; i < count; i++) {
        given.number[i] = numbers[i];
    }
}

#define GIVE(...) \
    give((const uint64_t[]){ __VA_ARGS__ }, \
         LENGTH(((const uint64_t[]){ __VA_ARGS__ })))

static void begin(const char *name)
{
    add(name);
    for (size_t i = 0; i < given.count; i++) {
        add(i == 0 ? "(" : ", ");
        add_hex(given.number[i]);
    }
    add(given.count == 0 ? "() = " : ") = ");
}

#define NUMBER(function, arguments) \
    do { \
        begin(#function); \
        add_number(function arguments); \
        end_line(); \
    } while (0)

#define FIELD(function, arguments) \
    do { \
        begin(#function); \
        add_hex(function arguments); \
        end_line(); \
    } while (0)

/* ---- The functions, in the header's order ---- */

static void timer_conversions(void)
{
    const uint32_t load = draw32();
    const uint32_t last = near32(load);
    const uint32_t current = near32(load);
    const uint32_t tick = draw32();
    const uint64_t cycles = draw64();
    const uint64_t ticks = near64(tick == 0 ? 0 : UINT64_MAX / tick);

    GIVE(last, current, load);
    NUMBER(systick_elapsed_cycles_number, (last, current, load));
    FIELD(systick_elapsed_cycles_cycles, (last, current, load));
    GIVE(cycles, tick);
    NUMBER(systick_cycles_to_ticks_number, (cycles, tick));
    FIELD(systick_cycles_to_ticks_ticks, (cycles, tick));
    GIVE(ticks, tick);
    NUMBER(systick_ticks_to_cycles_number, (ticks, tick));
    FIELD(systick_ticks_to_cycles_cycles, (ticks, tick));
    GIVE(tick);
    NUMBER(systick_max_ticks_number, (tick));
    FIELD(systick_max_ticks_ticks, (tick));
}

static void timer_sample(void)
{
    const uint32_t load = draw32();
    const uint32_t val2 = near32(load);
    const uint32_t val1 = near32(val2);
    const uint32_t flag = draw_flag();
    const uint32_t overflow = near32(UINT32_MAX - load - (load - val2));
    const uint32_t raw = near32(load);

    GIVE(val1, val2, flag, load, overflow);
    NUMBER(systick_elapsed_decide_number, (val1, val2, flag, load, overflow));
    FIELD(systick_elapsed_decide_wrap_detected,
          (val1, val2, flag, load, overflow));
    FIELD(systick_elapsed_decide_new_overflow_cyc,
          (val1, val2, flag, load, overflow));
    FIELD(systick_elapsed_decide_elapsed, (val1, val2, flag, load, overflow));
    GIVE(raw, load);
    NUMBER(counter_value_number, (raw, load));
    FIELD(counter_value_value, (raw, load));
}

static void timer_announcement(void)
{
    const uint32_t tick = draw32();
    const uint32_t overflow = draw32();
    const uint64_t count = near64(UINT64_MAX - overflow);
    /* from no tick to one more than fits */
    const uint64_t lag = near64((uint64_t)tick << 32);
    const uint64_t announced = near64(count + overflow - lag);

    GIVE(count, announced, overflow, tick);
    NUMBER(systick_announce_decide_number, (count, announced, overflow, tick));
    FIELD(systick_announce_decide_dticks, (count, announced, overflow, tick));
    FIELD(systick_announce_decide_new_cycle_count,
          (count, announced, overflow, tick));
    FIELD(systick_announce_decide_new_announced_cycles,
          (count, announced, overflow, tick));
}

static void thread_changes(void)
{
    const uint32_t track = draw_flag();
    const uint32_t windows = draw32();
    const uint32_t cycles = draw32();
    const uint64_t total = near64(UINT64_MAX - cycles);

    GIVE(track, total, windows);
    NUMBER(usage_enable_number, (track, total, windows));
    FIELD(usage_enable_track_usage, (track, total, windows));
    FIELD(usage_enable_total_cycles, (track, total, windows));
    FIELD(usage_enable_num_windows, (track, total, windows));
    NUMBER(usage_disable_number, (track, total, windows));
    FIELD(usage_disable_track_usage, (track, total, windows));
    FIELD(usage_disable_total_cycles, (track, total, windows));
    FIELD(usage_disable_num_windows, (track, total, windows));
    NUMBER(usage_is_tracked_number, (track, total, windows));
    FIELD(usage_is_tracked_tracked, (track, total, windows));
    GIVE(track, total, windows, cycles);
    NUMBER(usage_accumulate_number, (track, total, windows, cycles));
    FIELD(usage_accumulate_track_usage, (track, total, windows, cycles));
    FIELD(usage_accumulate_total_cycles, (track, total, windows, cycles));
    FIELD(usage_accumulate_num_windows, (track, total, windows, cycles));
}

/* A record that is lent, between numbers that no call may change. */
static struct {
    uint64_t below;
    struct thread_usage thread;
    uint64_t above;
} lent;

static void lend(bool track, uint64_t total, uint32_t windows)
{
    lent.below = total;
    lent.thread = (struct thread_usage){ track, total, windows };
    lent.above = ~total;
}

static void say_lent(void)
{
    const uint64_t all[] = { lent.below, lent.thread.track_usage,
                             lent.thread.total_cycles, lent.thread.num_windows,
                             lent.above };

    for (size_t i = 0; i < LENGTH(all); i++) {
        add(i == 0 ? " and " : " ");
        add_hex(all[i]);
    }
    end_line();
}

static void thread_lent(void)
{
    const bool track = next() % 2 == 0;
    const uint32_t windows = draw32();
    const uint32_t cycles = draw32();
    const uint64_t total = near64(UINT64_MAX - cycles);

    GIVE(track, total, windows);
    lend(track, total, windows);
    begin("usage_enable");
    add_number(usage_enable(&lent.thread));
    say_lent();
    lend(track, total, windows);
    begin("usage_disable");
    add_number(usage_disable(&lent.thread));
    say_lent();
    lend(track, total, windows);
    begin("usage_is_tracked");
    add_hex(usage_is_tracked(&lent.thread));
    say_lent();
    GIVE(track, total, windows, cycles);
    lend(track, total, windows);
    begin("usage_accumulate");
    add_number(usage_accumulate(&lent.thread, cycles));
    say_lent();
}

static void thread_rest(void)
{
    const uint64_t total = draw64();
    const uint32_t windows = draw32();
    const uint32_t now = draw32();
    const uint32_t usage0 = near32(now);
    const uint32_t flag = draw_flag();

    GIVE(total, windows);
    NUMBER(usage_average_cycles_number, (total, windows));
    FIELD(usage_average_cycles_cycles, (total, windows));
    GIVE(now, usage0);
    NUMBER(usage_elapsed_cycles_number, (now, usage0));
    FIELD(usage_elapsed_cycles_cycles, (now, usage0));
    give(NULL, 0);
    NUMBER(usage_new_idle_number, ());
    FIELD(usage_new_idle_track_usage, ());
    FIELD(usage_new_idle_total_cycles, ());
    FIELD(usage_new_idle_num_windows, ());
    GIVE(flag);
    NUMBER(usage_sys_enable_decide_number, (flag));
    FIELD(usage_sys_enable_decide_apply, (flag));
    NUMBER(usage_sys_disable_decide_number, (flag));
    FIELD(usage_sys_disable_decide_apply, (flag));
    NUMBER(usage_start_decide_number, (flag));
    FIELD(usage_start_decide_record_start, (flag));
    NUMBER(usage_stop_decide_number, (flag));
    FIELD(usage_stop_decide_accumulate, (flag));
}

int main(void)
{
    for (int round = 0; round < ROUNDS; round++) {
        timer_conversions();
        timer_sample();
        timer_announcement();
        thread_changes();
        thread_lent();
        thread_rest();
    }
    return 0;
}
