/* A check that ends the program with a failure and says what is not so. */
#ifndef EXPECT_H
#define EXPECT_H

#include <stdbool.h>
#include <stdio.h>
#include <stdlib.h>

static void expect(bool holds, const char *file, int line, const char *what) {
    if (!holds) {
        fprintf(stderr, "%s:%d: not so: %s\n", file, line, what);
        exit(1);
    }
}
#define EXPECT(fact) expect(fact, __FILE__, __LINE__, #fact)

#endif
