/* SPDX-License-Identifier: Apache-2.0 */
/*
 * systick_port.h: keeps interrupts out of a sample, by PRIMASK. To do it in
 * another way, an operating system's for one, write a header with the same two
 * functions and compile with -DSYSTICK_CLOCK_PORT='"that_header.h"'.
 */
#ifndef SYSTICK_PORT_H
#define SYSTICK_PORT_H

#include <stdint.h>

#if defined(__ARM_ARCH_PROFILE) && __ARM_ARCH_PROFILE == 'M'

/* Masks interrupts, and answers the mask as it was. */
static inline uint32_t systick_clock_mask(void)
{
    uint32_t was;

    __asm__ volatile("mrs %0, primask\n\tcpsid i" : "=r"(was) : : "memory");
    return was;
}

/* Puts the mask back, so that calls with interrupts masked leave them so. */
static inline void systick_clock_restore(uint32_t was)
{
    __asm__ volatile("msr primask, %0" : : "r"(was) : "memory");
}

#elif defined(__arm__) || defined(__ICCARM__) || defined(__CC_ARM)

#error "this compiler is not known here: define SYSTICK_CLOCK_PORT"

#else

/* A host has no SysTick, and nothing to mask. */
static inline uint32_t systick_clock_mask(void)
{
    return 0;
}

static inline void systick_clock_restore(uint32_t was)
{
    (void)was;
}

#endif

#endif
