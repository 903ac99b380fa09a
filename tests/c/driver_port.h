/*
 * driver_port.h: in place of systick_port.h, a mask that driver.c can look at,
 * with a count of how often it was set.
 */
#ifndef DRIVER_PORT_H
#define DRIVER_PORT_H

#include <stdint.h>

extern uint32_t masked;
extern uint32_t masks;

static inline uint32_t systick_clock_mask(void)
{
    const uint32_t was = masked;

    masked = 1;
    masks++;
    return was;
}

static inline void systick_clock_restore(uint32_t was)
{
    masked = was;
}

#endif
