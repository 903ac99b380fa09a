// Shows that the headers compile as C++, beside <ctime> and its clock. They are
// included twice, since their guards must hold.
#include "systick_clock.h"
#include "systick_clock.h"
#include "tickclock.h"
#include "tickclock.h"

#include <ctime>

#if TICKCLOCK_VERSION < 0x010000
#error "the version is no number that can be tested here"
#endif

// The pointers' types are written out, so that a changed prototype doesn't
// compile. Between them they have every kind of argument and result.
extern "C" {

int32_t (*difference_number)(uint32_t, uint32_t, uint32_t) =
    systick_elapsed_cycles_number;

uint64_t (*cycles_of_ticks)(uint64_t, uint32_t) =
    systick_ticks_to_cycles_cycles;

uint32_t (*wrap_of_sample)(uint32_t, uint32_t, uint32_t, uint32_t, uint32_t) =
    systick_elapsed_decide_wrap_detected;

uint64_t (*announced_after)(uint64_t, uint64_t, uint32_t, uint32_t) =
    systick_announce_decide_new_announced_cycles;

uint64_t (*total_after)(uint32_t, uint64_t, uint32_t, uint32_t) =
    usage_accumulate_total_cycles;

uint32_t (*windows_of_idle)(void) = usage_new_idle_num_windows;

int32_t (*add_in_place)(struct thread_usage *, uint32_t) = usage_accumulate;

bool (*looked_at)(const struct thread_usage *) = usage_is_tracked;

int32_t (*sampled)(struct systick_clock *, uint64_t *) = systick_clock_sample;

}

int main()
{
    return 0;
}
