/*
 * Checks the exported leaves through the C interface: document 01's numbers
 * to check, every refusal with its number and zeroed fields, the values on both
 * sides of each boundary, and flags other than 0 and 1.
 *
 * Prints each failed check, then a count; exits 1 if any check failed.
 */

/* First, so that the header is shown to need no other before it. */
#include "tickclock.h"

#include "checks.h"

#include <stddef.h>

/*
 * One row for each case: the arguments in brackets, the number, then every
 * field. A row asks all of a leaf's functions, so none is left out.
 */
#define SYSTICK_ELAPSED_CYCLES(args, number, cycles) \
    do { \
        CHECK_NUMBER(systick_elapsed_cycles_number args, number); \
        CHECK(systick_elapsed_cycles_cycles args, cycles); \
    } while (0)

#define SYSTICK_CYCLES_TO_TICKS(args, number, ticks) \
    do { \
        CHECK_NUMBER(systick_cycles_to_ticks_number args, number); \
        CHECK(systick_cycles_to_ticks_ticks args, ticks); \
    } while (0)

#define SYSTICK_TICKS_TO_CYCLES(args, number, cycles) \
    do { \
        CHECK_NUMBER(systick_ticks_to_cycles_number args, number); \
        CHECK(systick_ticks_to_cycles_cycles args, cycles); \
    } while (0)

#define SYSTICK_MAX_TICKS(args, number, ticks) \
    do { \
        CHECK_NUMBER(systick_max_ticks_number args, number); \
        CHECK(systick_max_ticks_ticks args, ticks); \
    } while (0)

#define SYSTICK_ELAPSED_DECIDE(args, number, wrap, overflow, elapsed) \
    do { \
        CHECK_NUMBER(systick_elapsed_decide_number args, number); \
        CHECK(systick_elapsed_decide_wrap_detected args, wrap); \
        CHECK(systick_elapsed_decide_new_overflow_cyc args, overflow); \
        CHECK(systick_elapsed_decide_elapsed args, elapsed); \
    } while (0)

#define SYSTICK_ANNOUNCE_DECIDE(args, number, dticks, count, announced) \
    do { \
        CHECK_NUMBER(systick_announce_decide_number args, number); \
        CHECK(systick_announce_decide_dticks args, dticks); \
        CHECK(systick_announce_decide_new_cycle_count args, count); \
        CHECK(systick_announce_decide_new_announced_cycles args, announced); \
    } while (0)

#define COUNTER_VALUE(args, number, value) \
    do { \
        CHECK_NUMBER(counter_value_number args, number); \
        CHECK(counter_value_value args, value); \
    } while (0)

#define USAGE_ENABLE(args, number, track, total, windows) \
    do { \
        CHECK_NUMBER(usage_enable_number args, number); \
        CHECK(usage_enable_track_usage args, track); \
        CHECK(usage_enable_total_cycles args, total); \
        CHECK(usage_enable_num_windows args, windows); \
    } while (0)

#define USAGE_DISABLE(args, number, track, total, windows) \
    do { \
        CHECK_NUMBER(usage_disable_number args, number); \
        CHECK(usage_disable_track_usage args, track); \
        CHECK(usage_disable_total_cycles args, total); \
        CHECK(usage_disable_num_windows args, windows); \
    } while (0)

#define USAGE_ACCUMULATE(args, number, track, total, windows) \
    do { \
        CHECK_NUMBER(usage_accumulate_number args, number); \
        CHECK(usage_accumulate_track_usage args, track); \
        CHECK(usage_accumulate_total_cycles args, total); \
        CHECK(usage_accumulate_num_windows args, windows); \
    } while (0)

#define USAGE_AVERAGE_CYCLES(args, number, cycles) \
    do { \
        CHECK_NUMBER(usage_average_cycles_number args, number); \
        CHECK(usage_average_cycles_cycles args, cycles); \
    } while (0)

#define USAGE_ELAPSED_CYCLES(args, number, cycles) \
    do { \
        CHECK_NUMBER(usage_elapsed_cycles_number args, number); \
        CHECK(usage_elapsed_cycles_cycles args, cycles); \
    } while (0)

#define USAGE_IS_TRACKED(args, number, tracked) \
    do { \
        CHECK_NUMBER(usage_is_tracked_number args, number); \
        CHECK(usage_is_tracked_tracked args, tracked); \
    } while (0)

#define USAGE_SYS_ENABLE_DECIDE(args, number, apply) \
    do { \
        CHECK_NUMBER(usage_sys_enable_decide_number args, number); \
        CHECK(usage_sys_enable_decide_apply args, apply); \
    } while (0)

#define USAGE_SYS_DISABLE_DECIDE(args, number, apply) \
    do { \
        CHECK_NUMBER(usage_sys_disable_decide_number args, number); \
        CHECK(usage_sys_disable_decide_apply args, apply); \
    } while (0)

#define USAGE_START_DECIDE(args, number, record_start) \
    do { \
        CHECK_NUMBER(usage_start_decide_number args, number); \
        CHECK(usage_start_decide_record_start args, record_start); \
    } while (0)

#define USAGE_STOP_DECIDE(args, number, accumulate) \
    do { \
        CHECK_NUMBER(usage_stop_decide_number args, number); \
        CHECK(usage_stop_decide_accumulate args, accumulate); \
    } while (0)

/* Short names for the rows; constants() holds them to document 01's values. */
#define OK TICKCLOCK_OK
#define INVALID TICKCLOCK_EINVAL
#define TOO_BIG TICKCLOCK_EOVERFLOW
#define MAX32 UINT32_MAX
#define MAX64 UINT64_MAX
#define U64(digits) UINT64_C(digits)

static void constants(void)
{
    CHECK_NUMBER(TICKCLOCK_OK, 0);
    CHECK_NUMBER(TICKCLOCK_ENOENT, -2);
    CHECK_NUMBER(TICKCLOCK_EBADF, -9);
    CHECK_NUMBER(TICKCLOCK_EAGAIN, -11);
    CHECK_NUMBER(TICKCLOCK_EINVAL, -22);
    CHECK_NUMBER(TICKCLOCK_ENOSPC, -28);
    CHECK_NUMBER(TICKCLOCK_EALREADY, -114);
    CHECK_NUMBER(TICKCLOCK_EOVERFLOW, -139);
    CHECK(TICKCLOCK_SYSTICK_MAX_LOAD, 16777215);
}

/* Document 01's table, by its own numbering. */
static void numbers_to_check(void)
{
    /* 1 */
    SYSTICK_ELAPSED_CYCLES((7, 3, 10), OK, 4);
    /* 2 */
    SYSTICK_ELAPSED_CYCLES((3, 7, 10), OK, 6);
    /* 3 */
    SYSTICK_ELAPSED_CYCLES((0, 10, 10), OK, 0);
    SYSTICK_ELAPSED_CYCLES((10, 0, 10), OK, 10);
    /* 4 */
    SYSTICK_ELAPSED_DECIDE((1, 9, 0, 10, 0), OK, 1, 10, 11);
    /* 5 */
    SYSTICK_ELAPSED_DECIDE((9, 9, 0, 10, 10), OK, 0, 10, 11);
    /* 6: room for a wrap is asked for whether one comes or not */
    SYSTICK_ELAPSED_DECIDE((10, 10, 0, 10, 4294967285u), OK, 0, 4294967285u,
                           4294967285u);
    SYSTICK_ELAPSED_DECIDE((10, 10, 1, 10, 4294967285u), OK, 1, 4294967295u,
                           4294967295u);
    SYSTICK_ELAPSED_DECIDE((10, 10, 0, 10, 4294967286u), TOO_BIG, 0, 0, 0);
    SYSTICK_ELAPSED_DECIDE((10, 10, 1, 10, 4294967286u), TOO_BIG, 0, 0, 0);
    /* 7 */
    SYSTICK_MAX_TICKS((12000), OK, 1397);
    SYSTICK_MAX_TICKS((16777215), OK, 0);
    SYSTICK_MAX_TICKS((16777216), OK, 0);
    /* 8 */
    SYSTICK_TICKS_TO_CYCLES((U64(4294967297), 4294967295u), OK,
                            U64(18446744073709551615));
    SYSTICK_TICKS_TO_CYCLES((U64(4294967298), 4294967295u), TOO_BIG, 0);
    /* 9 */
    SYSTICK_ANNOUNCE_DECIDE((U64(4294967295), 0, 0, 1), OK, 4294967295u,
                            U64(4294967295), U64(4294967295));
    SYSTICK_ANNOUNCE_DECIDE((U64(4294967296), 0, 0, 1), TOO_BIG, 0, 0, 0);
    /* 10 */
    USAGE_ELAPSED_CYCLES((1, 4294967295u), OK, 2);
    /* 11: the time 4294967296 has the stamp 1, since its low 32 bits are 0 */
    USAGE_ELAPSED_CYCLES((1, 1), OK, 0);
    USAGE_ELAPSED_CYCLES((1, 2), OK, 4294967295u);
    /* 12 */
    USAGE_ACCUMULATE((1, MAX64, 3, 0), OK, 1, MAX64, 3);
    USAGE_ACCUMULATE((1, MAX64, 3, 1), TOO_BIG, 0, 0, 0);
}

static void systick_elapsed_cycles(void)
{
    SYSTICK_ELAPSED_CYCLES((10, 11, 10), INVALID, 0);
    SYSTICK_ELAPSED_CYCLES((11, 10, 10), INVALID, 0);
    SYSTICK_ELAPSED_CYCLES((11, 11, 10), INVALID, 0);
    SYSTICK_ELAPSED_CYCLES((MAX32, 0, MAX32 - 1), INVALID, 0);
    SYSTICK_ELAPSED_CYCLES((0, MAX32, MAX32 - 1), INVALID, 0);
    SYSTICK_ELAPSED_CYCLES((1, 0, 0), INVALID, 0);
    SYSTICK_ELAPSED_CYCLES((0, 1, 0), INVALID, 0);

    SYSTICK_ELAPSED_CYCLES((0, 0, 0), OK, 0);
    SYSTICK_ELAPSED_CYCLES((10, 10, 10), OK, 0);
    SYSTICK_ELAPSED_CYCLES((5, 4, 10), OK, 1);
    SYSTICK_ELAPSED_CYCLES((5, 5, 10), OK, 0);
    SYSTICK_ELAPSED_CYCLES((5, 6, 10), OK, 9);
    SYSTICK_ELAPSED_CYCLES((1, 10, 10), OK, 1);

    /* last_count + load passes 32 bits, the answer doesn't. */
    SYSTICK_ELAPSED_CYCLES((MAX32 - 1, MAX32, MAX32), OK, MAX32 - 1);
    SYSTICK_ELAPSED_CYCLES((MAX32, 0, MAX32), OK, MAX32);
}

static void systick_cycles_to_ticks(void)
{
    SYSTICK_CYCLES_TO_TICKS((0, 0), INVALID, 0);
    SYSTICK_CYCLES_TO_TICKS((MAX64, 0), INVALID, 0);

    SYSTICK_CYCLES_TO_TICKS((0, 1), OK, 0);
    SYSTICK_CYCLES_TO_TICKS((11999, 12000), OK, 0);
    SYSTICK_CYCLES_TO_TICKS((12000, 12000), OK, 1);
    SYSTICK_CYCLES_TO_TICKS((23999, 12000), OK, 1);
    SYSTICK_CYCLES_TO_TICKS((24000, 12000), OK, 2);
    SYSTICK_CYCLES_TO_TICKS((MAX64, 1), OK, MAX64);
    SYSTICK_CYCLES_TO_TICKS((MAX64 - 1, MAX32), OK, U64(4294967296));
    SYSTICK_CYCLES_TO_TICKS((MAX64, MAX32), OK, U64(4294967297));
}

static void systick_ticks_to_cycles(void)
{
    /* The smallest refused for 2 and 3: the products 2^64 and 2^64 + 2. */
    SYSTICK_TICKS_TO_CYCLES((U64(9223372036854775808), 2), TOO_BIG, 0);
    SYSTICK_TICKS_TO_CYCLES((U64(6148914691236517206), 3), TOO_BIG, 0);
    SYSTICK_TICKS_TO_CYCLES((MAX64, 2), TOO_BIG, 0);
    SYSTICK_TICKS_TO_CYCLES((MAX64, MAX32), TOO_BIG, 0);

    SYSTICK_TICKS_TO_CYCLES((U64(9223372036854775807), 2), OK,
                            U64(18446744073709551614));
    SYSTICK_TICKS_TO_CYCLES((U64(6148914691236517205), 3), OK, MAX64);
    SYSTICK_TICKS_TO_CYCLES((MAX64, 1), OK, MAX64);
    SYSTICK_TICKS_TO_CYCLES((1, MAX32), OK, MAX32);
    SYSTICK_TICKS_TO_CYCLES((1397, 12000), OK, 16764000);
    SYSTICK_TICKS_TO_CYCLES((0, MAX32), OK, 0);

    /* No cycles in a tick give no cycles, however many the ticks. */
    SYSTICK_TICKS_TO_CYCLES((0, 0), OK, 0);
    SYSTICK_TICKS_TO_CYCLES((MAX64, 0), OK, 0);
}

static void systick_max_ticks(void)
{
    SYSTICK_MAX_TICKS((0), INVALID, 0);

    SYSTICK_MAX_TICKS((1), OK, 16777214);
    SYSTICK_MAX_TICKS((2), OK, 8388606);

    /* The last with a quotient of 2, and the first with 1. */
    SYSTICK_MAX_TICKS((8388607), OK, 1);
    SYSTICK_MAX_TICKS((8388608), OK, 0);

    SYSTICK_MAX_TICKS((MAX32), OK, 0);
}

static void systick_elapsed_decide(void)
{
    SYSTICK_ELAPSED_DECIDE((10, 11, 0, 10, 0), INVALID, 0, 0, 0);
    SYSTICK_ELAPSED_DECIDE((12, 11, 1, 10, 0), INVALID, 0, 0, 0);
    SYSTICK_ELAPSED_DECIDE((0, 1, 0, 0, 0), INVALID, 0, 0, 0);
    SYSTICK_ELAPSED_DECIDE((0, MAX32, 1, MAX32 - 1, 0), INVALID, 0, 0, 0);
    /* Both refusals apply here, and the first one answers. */
    SYSTICK_ELAPSED_DECIDE((0, 11, 0, 10, MAX32), INVALID, 0, 0, 0);

    /* The sum is 2^32 in the first three; the others pass it by far. */
    SYSTICK_ELAPSED_DECIDE((0, 0, 0, 2147483647, 2), TOO_BIG, 0, 0, 0);
    SYSTICK_ELAPSED_DECIDE((0, 0, 1, 2147483648u, 0), TOO_BIG, 0, 0, 0);
    SYSTICK_ELAPSED_DECIDE((MAX32, MAX32, 0, MAX32, 1), TOO_BIG, 0, 0, 0);
    SYSTICK_ELAPSED_DECIDE((0, 0, 0, MAX32, 0), TOO_BIG, 0, 0, 0);
    SYSTICK_ELAPSED_DECIDE((0, 0, 1, MAX32, MAX32), TOO_BIG, 0, 0, 0);

    /* The sum is 2^32 - 1. */
    SYSTICK_ELAPSED_DECIDE((0, 0, 0, 2147483647, 1), OK, 0, 1, 2147483648u);
    SYSTICK_ELAPSED_DECIDE((0, 0, 1, 2147483647, 1), OK, 1, 2147483648u, MAX32);
    SYSTICK_ELAPSED_DECIDE((0, 1, 0, 2147483648u, 0), OK, 1, 2147483648u,
                           MAX32);
    SYSTICK_ELAPSED_DECIDE((MAX32, MAX32, 0, MAX32, 0), OK, 0, 0, 0);
    SYSTICK_ELAPSED_DECIDE((0, MAX32, 0, MAX32, 0), OK, 1, MAX32, MAX32);

    /* With the largest period 254 wraps leave room for a sample; 255 don't. */
    SYSTICK_ELAPSED_DECIDE((1, 1, 0, 16777215, 4261412610u), OK, 0, 4261412610u,
                           4278189824u);
    SYSTICK_ELAPSED_DECIDE((1, 1, 1, 16777215, 4261412610u), OK, 1, 4278189825u,
                           4294967039u);
    SYSTICK_ELAPSED_DECIDE((1, 1, 0, 16777215, 4278189825u), TOO_BIG, 0, 0, 0);

    /* val1 on both sides of val2, without the flag and with it. */
    SYSTICK_ELAPSED_DECIDE((6, 5, 0, 10, 20), OK, 0, 20, 25);
    SYSTICK_ELAPSED_DECIDE((5, 5, 0, 10, 20), OK, 0, 20, 25);
    SYSTICK_ELAPSED_DECIDE((4, 5, 0, 10, 20), OK, 1, 30, 35);
    SYSTICK_ELAPSED_DECIDE((6, 5, 1, 10, 20), OK, 1, 30, 35);
    SYSTICK_ELAPSED_DECIDE((5, 5, 1, 10, 20), OK, 1, 30, 35);
    /* Seen both ways, a wrap still counts once. */
    SYSTICK_ELAPSED_DECIDE((4, 5, 1, 10, 20), OK, 1, 30, 35);

    /* val2 at both ends, and val1 above load, which is not refused. */
    SYSTICK_ELAPSED_DECIDE((10, 0, 0, 10, 0), OK, 0, 0, 10);
    SYSTICK_ELAPSED_DECIDE((10, 10, 0, 10, 0), OK, 0, 0, 0);
    SYSTICK_ELAPSED_DECIDE((11, 10, 0, 10, 0), OK, 0, 0, 0);
    SYSTICK_ELAPSED_DECIDE((MAX32, 0, 0, 10, 0), OK, 0, 0, 10);

    /* A period of 0 is not refused, and a wrap then adds nothing. */
    SYSTICK_ELAPSED_DECIDE((0, 0, 0, 0, 0), OK, 0, 0, 0);
    SYSTICK_ELAPSED_DECIDE((0, 0, 1, 0, MAX32), OK, 1, MAX32, MAX32);

    /* Any flag but 0 is set; 256 is one whose low byte is 0. */
    SYSTICK_ELAPSED_DECIDE((9, 9, 2, 10, 0), OK, 1, 10, 11);
    SYSTICK_ELAPSED_DECIDE((9, 9, 256, 10, 0), OK, 1, 10, 11);
    SYSTICK_ELAPSED_DECIDE((9, 9, 0x80000000u, 10, 0), OK, 1, 10, 11);
    SYSTICK_ELAPSED_DECIDE((9, 9, MAX32, 10, 0), OK, 1, 10, 11);
}

static void counter_value(void)
{
    COUNTER_VALUE((0, 10), OK, 10);
    COUNTER_VALUE((1, 10), OK, 1);
    COUNTER_VALUE((9, 10), OK, 9);
    COUNTER_VALUE((10, 10), INVALID, 0);
    COUNTER_VALUE((11, 10), INVALID, 0);
    COUNTER_VALUE((0, 2), OK, 2);
    COUNTER_VALUE((1, 2), OK, 1);
    COUNTER_VALUE((0, 1), INVALID, 0);
    COUNTER_VALUE((0, 0), INVALID, 0);
    COUNTER_VALUE((0, 16777215), OK, 16777215);
    COUNTER_VALUE((16777214, 16777215), OK, 16777214);
    COUNTER_VALUE((16777215, 16777215), INVALID, 0);
    COUNTER_VALUE((0, 16777216), INVALID, 0);
    COUNTER_VALUE((0, MAX32), INVALID, 0);
    COUNTER_VALUE((MAX32, 16777215), INVALID, 0);
}

static void systick_announce_decide(void)
{
    SYSTICK_ANNOUNCE_DECIDE((0, 0, 0, 0), INVALID, 0, 0, 0);
    SYSTICK_ANNOUNCE_DECIDE((10, 8, 2, 0), INVALID, 0, 0, 0);
    /* The count doesn't fit either, but the tick is tested first. */
    SYSTICK_ANNOUNCE_DECIDE((MAX64, 0, 1, 0), INVALID, 0, 0, 0);

    SYSTICK_ANNOUNCE_DECIDE((MAX64, MAX64, 1, 1), TOO_BIG, 0, 0, 0);
    SYSTICK_ANNOUNCE_DECIDE((MAX64, MAX64, MAX32, MAX32), TOO_BIG, 0, 0, 0);
    SYSTICK_ANNOUNCE_DECIDE((MAX64 - MAX32 + 1, MAX64, MAX32, 1), TOO_BIG, 0, 0,
                            0);
    /* A count cut to 64 bits would be below the announced cycles: -22. */
    SYSTICK_ANNOUNCE_DECIDE((MAX64, 5, 1, 1), TOO_BIG, 0, 0, 0);

    SYSTICK_ANNOUNCE_DECIDE((10, 11, 0, 4), INVALID, 0, 0, 0);
    SYSTICK_ANNOUNCE_DECIDE((10, 12, 1, 4), INVALID, 0, 0, 0);
    SYSTICK_ANNOUNCE_DECIDE((0, MAX64, MAX32, 1), INVALID, 0, 0, 0);

    SYSTICK_ANNOUNCE_DECIDE((1, 0, MAX32, 1), TOO_BIG, 0, 0, 0);
    SYSTICK_ANNOUNCE_DECIDE((U64(8589934592), 0, 0, 2), TOO_BIG, 0, 0, 0);
    SYSTICK_ANNOUNCE_DECIDE((U64(18446744069414584320), 0, 0, MAX32), TOO_BIG,
                            0, 0, 0);
    SYSTICK_ANNOUNCE_DECIDE((MAX64, 0, 0, 1), TOO_BIG, 0, 0, 0);

    /* The count just fits. */
    SYSTICK_ANNOUNCE_DECIDE((MAX64, MAX64, 0, 1), OK, 0, MAX64, MAX64);
    SYSTICK_ANNOUNCE_DECIDE((MAX64 - MAX32, MAX64 - MAX32, MAX32, 1), OK, MAX32,
                            MAX64, MAX64);
    /* The announced cycles just stay within the count. */
    SYSTICK_ANNOUNCE_DECIDE((10, 10, 0, 4), OK, 0, 10, 10);
    SYSTICK_ANNOUNCE_DECIDE((10, 11, 1, 4), OK, 0, 11, 11);
    /* The ticks just fit. */
    SYSTICK_ANNOUNCE_DECIDE((0, 0, MAX32, 1), OK, MAX32, MAX32, MAX32);
    SYSTICK_ANNOUNCE_DECIDE((U64(8589934591), 0, 0, 2), OK, MAX32,
                            U64(8589934591), U64(8589934590));
    SYSTICK_ANNOUNCE_DECIDE((U64(18446744069414584319), 0, 0, MAX32), OK, MAX32,
                            U64(18446744069414584319),
                            U64(18446744065119617025));

    /* Below a tick, at a tick, above it; then announced off a multiple. */
    SYSTICK_ANNOUNCE_DECIDE((0, 0, 3, 4), OK, 0, 3, 0);
    SYSTICK_ANNOUNCE_DECIDE((0, 0, 4, 4), OK, 1, 4, 4);
    SYSTICK_ANNOUNCE_DECIDE((0, 0, 10, 4), OK, 2, 10, 8);
    SYSTICK_ANNOUNCE_DECIDE((10, 8, 1, 4), OK, 0, 11, 8);
    SYSTICK_ANNOUNCE_DECIDE((10, 8, 2, 4), OK, 1, 12, 12);
    SYSTICK_ANNOUNCE_DECIDE((10, 3, 0, 4), OK, 1, 10, 7);
}

static void usage_enable_rows(void)
{
    USAGE_ENABLE((0, 5, MAX32), TOO_BIG, 0, 0, 0);
    USAGE_ENABLE((0, MAX64, MAX32), TOO_BIG, 0, 0, 0);

    USAGE_ENABLE((0, 0, 0), OK, 1, 0, 1);
    USAGE_ENABLE((0, 5, 7), OK, 1, 5, 8);
    USAGE_ENABLE((0, MAX64, MAX32 - 1), OK, 1, MAX64, MAX32);

    /* Already tracked: unchanged, also with a full count of windows. */
    USAGE_ENABLE((1, 5, 7), OK, 1, 5, 7);
    USAGE_ENABLE((1, MAX64, MAX32), OK, 1, MAX64, MAX32);

    USAGE_ENABLE((2, 5, 7), OK, 1, 5, 7);
    USAGE_ENABLE((256, 5, 7), OK, 1, 5, 7);
    USAGE_ENABLE((0x80000000u, 5, MAX32), OK, 1, 5, MAX32);
}

static void usage_disable_rows(void)
{
    USAGE_DISABLE((0, 0, 0), OK, 0, 0, 0);
    USAGE_DISABLE((0, 5, 7), OK, 0, 5, 7);
    USAGE_DISABLE((1, 5, 7), OK, 0, 5, 7);
    USAGE_DISABLE((0, MAX64, MAX32), OK, 0, MAX64, MAX32);
    USAGE_DISABLE((1, MAX64, MAX32), OK, 0, MAX64, MAX32);

    USAGE_DISABLE((2, 5, 7), OK, 0, 5, 7);
    USAGE_DISABLE((256, 5, 7), OK, 0, 5, 7);
    USAGE_DISABLE((0x80000000u, 5, 7), OK, 0, 5, 7);
}

static void usage_accumulate_rows(void)
{
    USAGE_ACCUMULATE((0, MAX64, MAX32, 1), TOO_BIG, 0, 0, 0);
    USAGE_ACCUMULATE((1, MAX64, 7, MAX32), TOO_BIG, 0, 0, 0);
    USAGE_ACCUMULATE((1, MAX64 - MAX32 + 1, 7, MAX32), TOO_BIG, 0, 0, 0);

    USAGE_ACCUMULATE((1, MAX64 - MAX32, 7, MAX32), OK, 1, MAX64, 7);
    USAGE_ACCUMULATE((0, MAX64 - 1, MAX32, 1), OK, 0, MAX64, MAX32);
    USAGE_ACCUMULATE((0, 0, 0, 0), OK, 0, 0, 0);
    USAGE_ACCUMULATE((1, 5, 7, 12), OK, 1, 17, 7);
    /* The carry into the upper half. */
    USAGE_ACCUMULATE((0, MAX32, 0, MAX32), OK, 0, U64(8589934590), 0);

    /* The flag comes back as 0 or 1. */
    USAGE_ACCUMULATE((2, 5, 7, 12), OK, 1, 17, 7);
    USAGE_ACCUMULATE((256, 5, 7, 12), OK, 1, 17, 7);
    USAGE_ACCUMULATE((0x80000000u, 5, 7, 12), OK, 1, 17, 7);
}

static void usage_average_cycles(void)
{
    USAGE_AVERAGE_CYCLES((0, 0), OK, 0);
    USAGE_AVERAGE_CYCLES((MAX64, 0), OK, 0);

    USAGE_AVERAGE_CYCLES((0, 1), OK, 0);
    USAGE_AVERAGE_CYCLES((2, 3), OK, 0);
    USAGE_AVERAGE_CYCLES((3, 3), OK, 1);
    USAGE_AVERAGE_CYCLES((5, 3), OK, 1);
    USAGE_AVERAGE_CYCLES((MAX64, 1), OK, MAX64);
    USAGE_AVERAGE_CYCLES((MAX64 - 1, MAX32), OK, U64(4294967296));
    USAGE_AVERAGE_CYCLES((MAX64, MAX32), OK, U64(4294967297));
}

static void usage_elapsed_cycles(void)
{
    USAGE_ELAPSED_CYCLES((0, 0), OK, 0);
    USAGE_ELAPSED_CYCLES((MAX32, MAX32), OK, 0);
    USAGE_ELAPSED_CYCLES((5, 3), OK, 2);
    USAGE_ELAPSED_CYCLES((3, 5), OK, MAX32 - 1);
    USAGE_ELAPSED_CYCLES((MAX32, 0), OK, MAX32);
    USAGE_ELAPSED_CYCLES((0, MAX32), OK, 1);
    USAGE_ELAPSED_CYCLES((0x80000000u, 0), OK, 0x80000000u);
    USAGE_ELAPSED_CYCLES((0, 0x80000000u), OK, 0x80000000u);
}

static void usage_is_tracked_rows(void)
{
    USAGE_IS_TRACKED((0, 0, 0), OK, 0);
    USAGE_IS_TRACKED((0, MAX64, MAX32), OK, 0);
    USAGE_IS_TRACKED((1, 0, 0), OK, 1);
    USAGE_IS_TRACKED((1, MAX64, MAX32), OK, 1);

    USAGE_IS_TRACKED((2, 0, 0), OK, 1);
    USAGE_IS_TRACKED((256, 0, 0), OK, 1);
    USAGE_IS_TRACKED((0x80000000u, 0, 0), OK, 1);
}

static void usage_new_idle(void)
{
    CHECK_NUMBER(usage_new_idle_number(), OK);
    CHECK(usage_new_idle_track_usage(), 0);
    CHECK(usage_new_idle_total_cycles(), 0);
    CHECK(usage_new_idle_num_windows(), 0);
}

static void usage_decides(void)
{
    USAGE_SYS_ENABLE_DECIDE((0), OK, 1);
    USAGE_SYS_ENABLE_DECIDE((1), OK, 0);
    USAGE_SYS_ENABLE_DECIDE((2), OK, 0);
    USAGE_SYS_ENABLE_DECIDE((256), OK, 0);
    USAGE_SYS_ENABLE_DECIDE((0x80000000u), OK, 0);

    USAGE_SYS_DISABLE_DECIDE((0), OK, 0);
    USAGE_SYS_DISABLE_DECIDE((1), OK, 1);
    USAGE_SYS_DISABLE_DECIDE((2), OK, 1);
    USAGE_SYS_DISABLE_DECIDE((256), OK, 1);
    USAGE_SYS_DISABLE_DECIDE((0x80000000u), OK, 1);

    USAGE_START_DECIDE((0), OK, 0);
    USAGE_START_DECIDE((1), OK, 1);
    USAGE_START_DECIDE((2), OK, 1);
    USAGE_START_DECIDE((256), OK, 1);
    USAGE_START_DECIDE((0x80000000u), OK, 1);

    /* A stamp, not a flag: only 0 says that nothing was started. */
    USAGE_STOP_DECIDE((0), OK, 0);
    USAGE_STOP_DECIDE((1), OK, 1);
    USAGE_STOP_DECIDE((256), OK, 1);
    USAGE_STOP_DECIDE((0x80000000u), OK, 1);
    USAGE_STOP_DECIDE((MAX32), OK, 1);
}

/*
 * One row for each case of a lent record: the call, with `lent` the record
 * handed over, then the number and every field afterwards.
 */
#define USAGE_LENT(track, total, windows, call, number, track_then, \
                   total_then, windows_then) \
    do { \
        struct thread_usage lent = { track, total, windows }; \
        CHECK_NUMBER(call, number); \
        CHECK(lent.track_usage, track_then); \
        CHECK(lent.total_cycles, total_then); \
        CHECK(lent.num_windows, windows_then); \
        CHECK(usage_is_tracked(&lent), track_then); \
    } while (0)

static void usage_lent(void)
{
    struct thread_usage idle = THREAD_USAGE_IDLE;

    /* Laid out as the library has it. */
    CHECK(offsetof(struct thread_usage, track_usage), 0);
    CHECK(offsetof(struct thread_usage, total_cycles), 8);
    CHECK(offsetof(struct thread_usage, num_windows), 16);
    CHECK(sizeof(struct thread_usage), 24);
    CHECK(sizeof idle.track_usage, 1);

    CHECK(idle.track_usage, 0);
    CHECK(idle.total_cycles, 0);
    CHECK(idle.num_windows, 0);

    USAGE_LENT(false, 0, 0, usage_enable(&lent), OK, 1, 0, 1);
    USAGE_LENT(false, MAX64, 7, usage_enable(&lent), OK, 1, MAX64, 8);
    USAGE_LENT(true, 5, 7, usage_enable(&lent), OK, 1, 5, 7);
    USAGE_LENT(false, 5, MAX32 - 1, usage_enable(&lent), OK, 1, 5, MAX32);
    USAGE_LENT(true, 5, MAX32, usage_enable(&lent), OK, 1, 5, MAX32);
    /* Refused: the record is as it was. */
    USAGE_LENT(false, 5, MAX32, usage_enable(&lent), TOO_BIG, 0, 5, MAX32);

    USAGE_LENT(true, 5, 7, usage_disable(&lent), OK, 0, 5, 7);
    USAGE_LENT(false, 5, 7, usage_disable(&lent), OK, 0, 5, 7);
    USAGE_LENT(true, MAX64, MAX32, usage_disable(&lent), OK, 0, MAX64, MAX32);

    USAGE_LENT(true, 5, 7, usage_accumulate(&lent, 3), OK, 1, 8, 7);
    USAGE_LENT(false, 5, 7, usage_accumulate(&lent, 3), OK, 0, 8, 7);
    USAGE_LENT(true, 0, 0, usage_accumulate(&lent, MAX32), OK, 1, MAX32, 0);
    USAGE_LENT(true, MAX64, 1, usage_accumulate(&lent, 0), OK, 1, MAX64, 1);
    USAGE_LENT(true, MAX64 - MAX32, 1, usage_accumulate(&lent, MAX32), OK, 1,
               MAX64, 1);
    USAGE_LENT(true, MAX64, 1, usage_accumulate(&lent, 1), TOO_BIG, 1, MAX64,
               1);
    USAGE_LENT(false, MAX64 - MAX32 + 1, 1, usage_accumulate(&lent, MAX32),
               TOO_BIG, 0, MAX64 - MAX32 + 1, 1);
}

int main(void)
{
    constants();
    numbers_to_check();
    systick_elapsed_cycles();
    systick_cycles_to_ticks();
    systick_ticks_to_cycles();
    systick_max_ticks();
    systick_elapsed_decide();
    counter_value();
    systick_announce_decide();
    usage_enable_rows();
    usage_disable_rows();
    usage_accumulate_rows();
    usage_average_cycles();
    usage_elapsed_cycles();
    usage_is_tracked_rows();
    usage_lent();
    usage_new_idle();
    usage_decides();
    return report("the exported functions");
}
