/* A check goes on when it fails, and tells where; `failed` is then the status of the tests. */
#include <stdio.h>

static int failed;
#define CHECK(c) \
    do { \
        if (!(c)) { \
            fprintf(stderr, "%s:%d: not so: %s\n", __FILE__, __LINE__, #c); \
            failed = 1; \
        } \
    } while (0)
