/* bench.c: lines of text, numbers drawn from a seed, checks and their count. */
#include "bench.h"

static char line[256];
static size_t length;

void add(const char *text)
{
    while (*text != '\0') {
        line[length++] = *text++;
    }
}

void add_hex(uint64_t n)
{
    int shift = 60;

    while (shift > 0 && n >> shift == 0) {
        shift -= 4;
    }
    for (; shift >= 0; shift -= 4) {
        line[length++] = "0123456789abcdef"[n >> shift & 15];
    }
}

void add_number(int32_t n)
{
    char digits[10];
    int count = 0;
    uint32_t rest = n < 0 ? 0 - (uint32_t)n : (uint32_t)n;

    if (n < 0) {
        add("-");
    }
    do {
        digits[count++] = (char)('0' + rest % 10);
        rest /= 10;
    } while (rest > 0);
    while (count > 0) {
        line[length++] = digits[--count];
    }
}

void end_line(void)
{
    line[length++] = '\n';
    line[length] = '\0';
    put(line);
    length = 0;
}

uint32_t next(void)
{
    static uint32_t state;

    /* A board's variables start at 0 (board.ld), and 0 would stay 0. */
    if (state == 0) {
        state = 0x2545f491;
    }
    state ^= state << 13;
    state ^= state >> 17;
    state ^= state << 5;
    return state;
}

static uint32_t checks;
static uint32_t failed;

void check(bool held)
{
    checks++;
    if (!held) {
        failed++;
    }
}

void end_checks(void)
{
    add_number((int32_t)checks);
    add(" checks, ");
    add_number((int32_t)failed);
    add(" failed");
    end_line();
    checks = failed = 0;
}
