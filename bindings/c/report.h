/* What is found: how many cases there were, which of them differ and in what. */
#ifndef REPORT_H
#define REPORT_H

#include <stddef.h>
#include <stdint.h>

/* The next case; `name` may be null where the case has but a number. */
void begin_case(const char *name);

/* Something of this case is not as expected; it is written out. */
void fault(const char *what, const char *how);

/* A fault at the first word that differs. */
void expect_words(const char *what, const uint64_t *got, const uint64_t *expected, size_t count);

/* The same of words of 32 bits. */
void expect_words32(const char *what, const uint32_t *got, const uint64_t *expected, size_t count);

/* Whether so many cases differ that it is no use to go on. */
int enough_differ(void);

/* Writes "N cases, M differ"; the answer is the program's status: 0 where there were cases and none differs. */
int end_cases(void);

#endif
