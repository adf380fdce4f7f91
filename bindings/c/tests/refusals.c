/* Each allocation of each call refused in turn: the call does without, or the answer is MZ_OUT_OF_MEMORY and sketches are as
 * before; nothing is lost.
 * Linked with -Wl,--wrap=malloc,--wrap=realloc,--wrap=free. */
#include "check.h"
#include "mezgoular.h"
#include <stdlib.h>

void *__real_malloc(size_t), *__real_realloc(void *, size_t);
void __real_free(void *);
void *__wrap_malloc(size_t), *__wrap_realloc(void *, size_t);
void __wrap_free(void *);

static long left = -1, live;

static int refuses(void) { return left >= 0 && left-- == 0; }
void *__wrap_malloc(size_t n) {
    if (refuses()) return NULL;
    live++;
    return __real_malloc(n);
}
void *__wrap_realloc(void *p, size_t n) {
    if (refuses()) return NULL;
    if (!p) live++;
    return __real_realloc(p, n);
}
void __wrap_free(void *p) {
    if (p) live--;
    __real_free(p);
}

static uint8_t before[1 << 20], after[1 << 20];
static uint64_t size_before, size_after;
static int64_t items[3000], got, ends[2], points[100];
static double floats[100];
static uint64_t weights[101];

#define TRY(NEW, call) \
    for (long n = 0;; n++) { \
        mz_sketch s = {0}, t = {0}, f = {0}; \
        long base = live; \
        CHECK(NEW(s, false) == MZ_OK && NEW(t, false) == MZ_OK && NEW(f, true) == MZ_OK && mz_update_f64(&f, 0.5) == MZ_OK); \
        CHECK(mz_update_all_i64(&s, items, 2503) == MZ_OK && mz_update_all_i64(&t, items, 3000) == MZ_OK); \
        CHECK(mz_serialize(&s, false, before, sizeof before, &size_before) == MZ_OK); \
        left = n; \
        int32_t answer = call; \
        bool none_refused = left >= 0; \
        left = -1; \
        if (answer != MZ_OK) { \
            CHECK(answer == MZ_OUT_OF_MEMORY); \
            CHECK(mz_serialize(&s, false, after, sizeof after, &size_after) == MZ_OK); \
            CHECK(size_after == size_before && !memcmp(before, after, size_after)); \
        } \
        mz_free(&s); \
        mz_free(&t); \
        mz_free(&f); \
        CHECK(live == base); \
        CHECK(answer == MZ_OK || !none_refused); \
        if (none_refused || failed) { \
            printf("%s: %ld allocations refused in turn\n", #call, n); \
            break; \
        } \
    }
#define NEW_KLL(s, floats) mz_kll_new(&s, 200, floats, 1)
#define NEW_REQ(s, floats) mz_req_new(&s, 12, true, floats, 1)
#define FAMILY(REQ, NEW) \
    TRY(NEW, NEW(s, false)) \
    TRY(NEW, mz_clone(&s, &t, 1)) \
    TRY(NEW, mz_update_i64(&s, 7)) \
    TRY(NEW, mz_update_all_i64(&s, items, 3000)) \
    TRY(NEW, mz_update_all_f64(&f, floats, 100)) \
    TRY(NEW, mz_merge(&s, &t)) \
    TRY(NEW, mz_quantile_i64(&s, 1, 2, true, &got)) \
    TRY(NEW, mz_masses_i64(&s, points, 100, true, true, weights, 101)) \
    TRY(NEW, mz_masses_f64(&f, floats, 100, true, false, weights, 101)) \
    TRY(NEW, mz_serialize(&s, false, after, sizeof after, &size_after)) \
    TRY(NEW, mz_deserialize(&s, REQ, before, size_before, 1))

int main(void) {
    for (int i = 0; i < 3000; i++) items[i] = i * 7919 % 3001;
    for (int i = 0; i < 100; i++) points[i] = i * 20, floats[i] = i / 8.0;
    FAMILY(false, NEW_KLL)
    FAMILY(true, NEW_REQ)
    TRY(NEW_KLL, mz_update_weighted_i64(&s, 7, 1000))
    /* these need no memory */
    mz_sketch k = {0};
    mz_info_t info;
    CHECK(NEW_KLL(k, false) == MZ_OK && mz_update_all_i64(&k, items, 3000) == MZ_OK);
    left = 0;
    CHECK(mz_rank_i64(&k, 7, true, weights, weights + 1) == MZ_OK && mz_ends_i64(&k, ends, ends + 1) == MZ_OK);
    CHECK(mz_info(&k, &info) == MZ_OK && mz_reset(&k) == MZ_OK);
    mz_free(&k);
    CHECK(left == 0 && live == 0);
    left = -1;
    puts(failed ? "refusals: FAILED" : "refusals: as they should be");
    return failed;
}
