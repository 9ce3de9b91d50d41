/* What the C tests share: each check is counted, and printed where it fails. */
#ifndef CHECKS_H
#define CHECKS_H

#include "tokenfinch.h"

#include <stdio.h>

enum { NO_OPCODE = TF_OP_LAST + 1 };

static int checks, failed;

static void report(const char *what, int right)
{
    checks++;
    if (!right) {
        failed++;
        printf("c: FAILED: %s\n", what);
    }
}

static inline void value(const char *what, tf_answer answer, int32_t expected)
{
    report(what, tf_refusal(answer) == 0 && tf_value(answer) == expected);
}

/* A refusal that names something, and one that names nothing. */
static inline void naming(const char *what, tf_answer answer, uint32_t expected, uint32_t named)
{
    report(what, tf_refusal(answer) == expected && tf_named(answer) == named);
}

static inline void refusal(const char *what, tf_answer answer, uint32_t expected) { naming(what, answer, expected, 0); }

/* The counts, and the exit status. */
static int verdict(const char *program)
{
    printf("c: %s: %d checks, %d failed\n", program, checks, failed);
    return failed == 0 ? 0 : 1;
}

#endif
