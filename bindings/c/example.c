/* The median and the 99th percentile of the numbers on standard input, one on each line:
 *     gcc example.c $(pkg-config --cflags --libs mezgoular) -o example && seq 1 1000 | ./example */
#include "mezgoular.h"
#include <errno.h>
#include <stdio.h>
#include <stdlib.h>

static int fail(const char *what) {
    fprintf(stderr, "example: %s\n", what);
    return 1;
}

int main(void) {
    char line[64];
    double median, high;
    mz_sketch sketch = {0};
    if (mz_req_new(&sketch, 50, true, true, 1) != MZ_OK) return fail("out of memory");
    while (fgets(line, sizeof line, stdin)) {
        char *end;
        double item = strtod(line, &end);
        if (end == line || (*end != '\n' && *end != '\r' && *end != '\0')) return fail("a line is no number");
        int32_t answer = mz_update_f64(&sketch, item);
        if (answer == MZ_NAN) return fail("a line is no number");
        if (answer != MZ_OK) return fail("out of memory");
    }
    if (ferror(stdin)) return fail("the input could not be read");
    int32_t answer = mz_quantile_f64(&sketch, 1, 2, true, &median);
    if (answer == MZ_OK) answer = mz_quantile_f64(&sketch, 99, 100, true, &high);
    mz_free(&sketch);
    if (answer == MZ_EMPTY) return fail("there is no number");
    if (answer != MZ_OK) return fail("out of memory");
    return printf("median %g, 99th percentile %g\n", median, high) < 0 || fflush(stdout) != 0;
}
