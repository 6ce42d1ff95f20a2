/* A test that fails names its place and stops the program. */
#ifndef CHECK_H
#define CHECK_H

#include <stdbool.h>
#include <stdio.h>
#include <stdlib.h>

#define CHECK(condition) check((condition), #condition, __FILE__, __LINE__)

static inline void check(bool holds, const char *condition, const char *file, int line)
{
    if (!holds) {
        printf("%s:%d: not so: %s\n", file, line, condition);
        exit(1);
    }
}

#endif
