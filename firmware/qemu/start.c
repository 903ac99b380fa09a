/* start.c: start-up for QEMU's boards, with semihosting for text and the end. */
#include "bench.h"

enum { SYS_WRITE0 = 0x04, SYS_EXIT = 0x18 };
#define STOPPED_RUN_TIME_ERROR 0x20023u
#define STOPPED_APPLICATION_EXIT 0x20026u

extern uint32_t stack_top;
int main(void);
void reset(void);

static void semihost(uint32_t operation, uintptr_t argument)
{
    register uint32_t r0 __asm__("r0") = operation;
    register uintptr_t r1 __asm__("r1") = argument;

    __asm__ volatile("bkpt 0xab" : "+r"(r0) : "r"(r1) : "memory");
}

static void stop(uint32_t reason)
{
    semihost(SYS_EXIT, reason);
    for (;;) {
    }
}

static void fault(void)
{
    put("fault\n");
    stop(STOPPED_RUN_TIME_ERROR);
}

void put(const char *text)
{
    semihost(SYS_WRITE0, (uintptr_t)text);
}

void reset(void)
{
#ifdef __ARM_FP
    /* the coprocessor access register: hard-float code may use the FPU */
    *(volatile uint32_t *)0xE000ED88u |= 0xFu << 20;
    __asm__ volatile("dsb\n\tisb");
#endif
    stop(main() == 0 ? STOPPED_APPLICATION_EXIT : STOPPED_RUN_TIME_ERROR);
}

/*
 * What compilers call for copies and fills, there being no C library here.
 * Whole words go by themselves, as a lent record does.
 */
void *memcpy(void *to, const void *from, size_t n)
{
    unsigned char *t = to;
    const unsigned char *f = from;

    if (((uintptr_t)to | (uintptr_t)from) % sizeof(uint32_t) == 0) {
        for (; n >= sizeof(uint32_t); n -= sizeof(uint32_t)) {
            *(uint32_t *)(void *)t = *(const uint32_t *)(const void *)f;
            t += sizeof(uint32_t);
            f += sizeof(uint32_t);
        }
    }
    while (n-- > 0) {
        *t++ = *f++;
    }
    return to;
}

void *memset(void *to, int byte, size_t n)
{
    unsigned char *t = to;

    while (n-- > 0) {
        *t++ = (unsigned char)byte;
    }
    return to;
}

void __aeabi_memcpy(void *to, const void *from, size_t n)
{
    memcpy(to, from, n);
}

/* Taken by the bench that has one; to any other the exception is a fault. */
__attribute__((weak, alias("fault"))) void systick_handler(void);

/* The stack, and the system exceptions, of which SysTick's is the last. */
__attribute__((section(".vectors"), used)) static const struct {
    uint32_t *stack;
    void (*handlers[15])(void);
} vectors = { &stack_top,
              { reset, fault, fault, fault, fault, fault, fault, fault, fault,
                fault, fault, fault, fault, fault, systick_handler } };
