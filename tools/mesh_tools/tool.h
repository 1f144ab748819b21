/* How a tool beside the program ends where it cannot answer: with one line, and a status of the program's kind. */
#ifndef TOOL_H
#define TOOL_H

#include <inttypes.h>
#include <stdarg.h>
#include <stdint.h>
#include <stdio.h>
#include <stdlib.h>
#include <string.h>

enum { USAGE = 2, REFUSED = 3, DEVICE = 5, NO_NODES = 6 };

static const char *tool_name;

__attribute__((noreturn, format(printf, 2, 3))) static void stop(int status, const char *form, ...) {
    va_list values;
    va_start(values, form);
    fprintf(stderr, "svo %s: ", tool_name);
    vfprintf(stderr, form, values);
    fputc('\n', stderr);
    va_end(values);
    exit(status);
}

/* A number of one digit behind an option, or -1. */
static inline int digit_of(const char *word) { return word && word[0] >= '0' && word[0] <= '9' && !word[1] ? word[0] - '0' : -1; }

#endif
