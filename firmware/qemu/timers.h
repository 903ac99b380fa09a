/*
 * timers.h: the timers of the board mps2-an385. SysTick and two others count
 * the same clock, so that one can be held to the others.
 */
#ifndef TIMERS_H
#define TIMERS_H

#include "systick_clock.h"

#define REGISTER(address) (*(volatile uint32_t *)(address))

#define SYSTICK ((struct systick_registers *)0xE000E010u)
#define ICSR REGISTER(0xE000ED04u)
#define PENDSTSET (1u << 26)
#define PENDSTCLR (1u << 25)

/* The dual timer: its first half counts down for ever, its second wakes us. */
#define TIMER1_LOAD REGISTER(0x40002000u)
#define TIMER1_VALUE REGISTER(0x40002004u)
#define TIMER1_CONTROL REGISTER(0x40002008u)
#define TIMER2_LOAD REGISTER(0x40002020u)
#define TIMER2_CONTROL REGISTER(0x40002028u)
#define TIMER2_INTCLR REGISTER(0x4000202Cu)
#define TIMER2_RIS REGISTER(0x40002030u)
#define TIMER_ENABLE (1u << 7)
#define TIMER_INTERRUPT (1u << 5)
#define TIMER_32_BITS (1u << 1)
#define TIMER_ONE_SHOT (1u << 0)
#define NVIC_ISER REGISTER(0xE000E100u)
#define NVIC_ICPR REGISTER(0xE000E280u)
#define DUAL_TIMER_IRQ (1u << 10)

/* The counter of the board's FPGA, which counts up. */
#define FPGA_COUNTER REGISTER(0x40028018u)
#define FPGA_PRESCALE REGISTER(0x4002801Cu)

/* The timers are read one after the other, and count whole cycles. */
#define SLACK 4

static inline void start_dual(void)
{
    TIMER1_LOAD = UINT32_MAX;
    TIMER1_CONTROL = TIMER_ENABLE | TIMER_32_BITS;
}

/* Cycles, counted up. */
static inline uint32_t dual(void)
{
    return ~TIMER1_VALUE;
}

#endif
