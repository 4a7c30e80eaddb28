#include "report.h"

#include <inttypes.h>
#include <stdio.h>

#define MOST_DIFFERING 10

static unsigned long cases;
static unsigned long differing;
static const char *case_name;
static int this_differs;

void begin_case(const char *name)
{
    cases++;
    case_name = name;
    this_differs = 0;
}

/* Counts the case, once, and begins a line about it. */
static void tell_case(void)
{
    differing += this_differs ? 0 : 1;
    this_differs = 1;
    printf("case %lu", cases);
    if (case_name != NULL) {
        printf(" (%s)", case_name);
    }
    printf(" differs: ");
}

void fault(const char *what, const char *how)
{
    tell_case();
    printf("%s %s\n", what, how);
}

static void word_fault(const char *what, size_t at, uint64_t got, uint64_t expected)
{
    tell_case();
    printf("%s %lu is %" PRIu64 " and not %" PRIu64 "\n", what, (unsigned long)at, got, expected);
}

void expect_words(const char *what, const uint64_t *got, const uint64_t *expected, size_t count)
{
    size_t i;
    for (i = 0; i < count; i++) {
        if (got[i] != expected[i]) {
            word_fault(what, i, got[i], expected[i]);
            return;
        }
    }
}

void expect_words32(const char *what, const uint32_t *got, const uint64_t *expected, size_t count)
{
    size_t i;
    for (i = 0; i < count; i++) {
        if (got[i] != expected[i]) {
            word_fault(what, i, got[i], expected[i]);
            return;
        }
    }
}

int enough_differ(void)
{
    return differing >= MOST_DIFFERING;
}

int end_cases(void)
{
    printf("%lu cases, %lu differ\n", cases, differing);
    return cases > 0 && differing == 0 ? 0 : 1;
}
