/*
 * checks.h: checks that are counted, and told where they fail. A program
 * includes it once, and ends with report().
 */
#ifndef CHECKS_H
#define CHECKS_H

#include <inttypes.h>
#include <stdio.h>

static unsigned long checks;
static unsigned long failed;

static void check_field(const char *file, int line, const char *text,
                        uint64_t expected, uint64_t got)
{
    checks++;
    if (got != expected) {
        failed++;
        printf("%s:%d: %s: expected %" PRIu64 ", got %" PRIu64 "\n", file, line,
               text, expected, got);
    }
}

static void check_number(const char *file, int line, const char *text,
                         int32_t expected, int32_t got)
{
    checks++;
    if (got != expected) {
        failed++;
        printf("%s:%d: %s: expected %" PRId32 ", got %" PRId32 "\n", file, line,
               text, expected, got);
    }
}

/* Two forms, since the numbers have a sign and the fields need all 64 bits. */
#define CHECK(expr, expected) \
    check_field(__FILE__, __LINE__, #expr, (expected), (expr))
#define CHECK_NUMBER(expr, expected) \
    check_number(__FILE__, __LINE__, #expr, (expected), (expr))

/* Says how many of what were held, and answers the program's status. */
static int report(const char *what)
{
    printf("c: %s: %lu checks, %lu failed\n", what, checks, failed);
    return failed > 0;
}

#endif
