/* What calls answer, on good and on bad input. */
#include "check.h"
#include "mezgoular.h"
#include <math.h>
#include <stdlib.h>

/* What holds for both families: F names one, NEW(s, floats) makes a sketch in which few items are all kept. */
#define BOTH(F, ID, NEW) \
    static void F##_handles(void) { \
        mz_sketch s = {0}, t = {0}; \
        mz_info_t info; \
        uint64_t w = 7, n = 8; \
        int64_t item = 9, high = 9, points[2] = {3, 7}; \
        uint8_t buffer[64]; \
        for (int round = 0; round < 2; round++) { \
            CHECK(mz_update_i64(&s, 1) == MZ_NO_SKETCH && mz_update_f64(&s, 1) == MZ_NO_SKETCH); \
            CHECK(mz_update_all_i64(&s, points, 2) == MZ_NO_SKETCH); \
            CHECK(mz_reset(&s) == MZ_NO_SKETCH && mz_info(&s, &info) == MZ_NO_SKETCH); \
            CHECK(mz_clone(&t, &s, 1) == MZ_NO_SKETCH && t.at == NULL && mz_merge(&s, &t) == MZ_NO_SKETCH); \
            CHECK(mz_rank_i64(&s, 1, true, &w, &n) == MZ_NO_SKETCH && w == 7 && n == 8); \
            CHECK(mz_quantile_i64(&s, 1, 2, true, &item) == MZ_NO_SKETCH && item == 9); \
            CHECK(mz_masses_i64(&s, points, 2, true, true, &w, 1) == MZ_NO_SKETCH && w == 7); \
            CHECK(mz_ends_i64(&s, &item, &high) == MZ_NO_SKETCH && item == 9 && high == 9); \
            CHECK(mz_serialize(&s, false, buffer, sizeof buffer, &n) == MZ_NO_SKETCH && n == 8); \
            mz_free(&s); \
            CHECK(s.at == NULL); \
            CHECK(NEW(s, false) == MZ_OK && s.at != NULL); \
            CHECK(mz_merge(&s, &t) == MZ_NO_SKETCH && mz_update_f64(&s, NAN) == MZ_KIND); \
            CHECK(mz_update_f64(&s, 1) == MZ_KIND && mz_quantile(&s, true, 1, 2, true, &item) == MZ_KIND); \
            mz_free(&s); \
        } \
    } \
    static void F##_answers(void) { \
        mz_sketch s = {0}, t = {0}; \
        mz_info_t info; \
        uint64_t w = 7, n = 8, ws[3] = {5, 5, 5}; \
        int64_t item = 9, high = 9, points[2] = {3, 7}; \
        CHECK(NEW(s, false) == MZ_OK); \
        CHECK(mz_rank_i64(&s, 1, true, &w, &n) == MZ_EMPTY && w == 7 && n == 8); \
        CHECK(mz_quantile_i64(&s, 1, 2, true, &item) == MZ_EMPTY && item == 9); \
        CHECK(mz_masses_i64(&s, points, 2, true, true, ws, 3) == MZ_EMPTY && ws[0] == 5); \
        CHECK(mz_ends_i64(&s, &item, &high) == MZ_EMPTY && item == 9 && high == 9); \
        CHECK(mz_update_all_i64(&s, points, 0) == MZ_OK); \
        for (int i = 1; i <= 9; i++) CHECK(mz_update_i64(&s, i) == MZ_OK); \
        CHECK(mz_info(&s, &info) == MZ_OK && info.n == 9 && info.retained == 9 && !info.floats && info.req == (ID == 2)); \
        CHECK(mz_rank_i64(&s, 5, true, &w, &n) == MZ_OK && w == 5 && n == 9); \
        CHECK(mz_rank_i64(&s, 5, false, &w, &n) == MZ_OK && w == 4 && n == 9); \
        CHECK(mz_rank_i64(&s, INT64_MAX, true, &w, &n) == MZ_OK && w == 9); \
        CHECK(mz_quantile_i64(&s, 1, 2, true, &item) == MZ_OK && item == 5); \
        CHECK(mz_quantile_i64(&s, 0, 1, true, &item) == MZ_OK && item == 1); \
        CHECK(mz_quantile_i64(&s, 1, 1, false, &item) == MZ_OK && item == 9); \
        CHECK(mz_quantile_i64(&s, 3, 2, true, &item) == MZ_INVALID_ARGUMENT && item == 9); \
        CHECK(mz_quantile_i64(&s, 0, 0, true, &item) == MZ_INVALID_ARGUMENT && item == 9); \
        CHECK(mz_masses_i64(&s, points, 2, true, false, ws, 3) == MZ_OK && ws[0] == 3 && ws[1] == 7 && ws[2] == 9); \
        CHECK(mz_masses_i64(&s, points, 2, true, true, ws, 3) == MZ_OK && ws[0] == 3 && ws[1] == 4 && ws[2] == 2); \
        CHECK(mz_masses_i64(&s, points, 2, true, true, ws, 2) == MZ_BUFFER && ws[0] == 3); \
        CHECK(mz_masses_i64(&s, points, 0, true, false, ws, 1) == MZ_OK && ws[0] == 9); \
        points[1] = 3; \
        CHECK(mz_masses_i64(&s, points, 2, true, true, ws, 3) == MZ_INVALID_ARGUMENT && ws[0] == 9); \
        CHECK(mz_ends_i64(&s, &item, &high) == MZ_OK && item == 1 && high == 9); \
        CHECK(mz_clone(&t, &s, 5) == MZ_OK && mz_merge(&s, &t) == MZ_OK); \
        CHECK(mz_info(&s, &info) == MZ_OK && info.n == 18 && mz_info(&t, &info) == MZ_OK && info.n == 9); \
        CHECK(mz_reset(&s) == MZ_OK && mz_info(&s, &info) == MZ_OK && info.n == 0 && info.retained == 0); \
        CHECK(mz_merge(&t, &s) == MZ_OK && mz_info(&t, &info) == MZ_OK && info.n == 9); \
        mz_free(&s); \
        CHECK(NEW(s, true) == MZ_OK && mz_merge(&t, &s) == MZ_KIND && mz_update_i64(&s, 1) == MZ_KIND); \
        mz_free(&s); \
        mz_free(&t); \
    } \
    static void F##_floats(void) { \
        mz_sketch s = {0}; \
        uint64_t w, n, ws[3]; \
        double low, high, points[2] = {-1e-300, 0.0}; \
        double items[8] = {-1.5, 2.25, -0.0, 0.0, 1e300, -1e-300, INFINITY, -INFINITY}; \
        CHECK(NEW(s, true) == MZ_OK && mz_update_all_f64(&s, items, 8) == MZ_OK); \
        items[3] = NAN; \
        CHECK(mz_update_all_f64(&s, items, 8) == MZ_NAN && mz_update_f64(&s, -NAN) == MZ_NAN); \
        CHECK(mz_rank_f64(&s, NAN, true, &w, &n) == MZ_NAN); \
        CHECK(mz_ends_f64(&s, &low, &high) == MZ_OK && low == -INFINITY && high == INFINITY); \
        CHECK(mz_rank_f64(&s, 0.0, true, &w, &n) == MZ_OK && w == 5 && n == 8); \
        CHECK(mz_rank_f64(&s, -0.0, false, &w, &n) == MZ_OK && w == 3); \
        CHECK(mz_quantile_f64(&s, 3, 8, true, &low) == MZ_OK && low == -1e-300); \
        CHECK(mz_quantile_f64(&s, 4, 8, true, &low) == MZ_OK && low == 0.0 && !signbit(low)); \
        CHECK(mz_masses_f64(&s, points, 2, true, false, ws, 3) == MZ_OK && ws[0] == 3 && ws[1] == 5 && ws[2] == 8); \
        points[1] = NAN; \
        CHECK(mz_masses_f64(&s, points, 2, true, false, ws, 3) == MZ_NAN); \
        mz_free(&s); \
    } \
    /* An image cut at each byte, with bytes behind it, with each byte of its frame changed, and of the other family. */ \
    static void F##_images(bool floats) { \
        mz_sketch s = {0}, t = {0}; \
        mz_info_t info; \
        uint64_t size = 1, plain = 1, again; \
        uint8_t *image, *other; \
        CHECK(NEW(s, floats) == MZ_OK && NEW(t, floats) == MZ_OK && mz_reset(&t) == MZ_OK); \
        for (int i = 0; i < 3000; i++) \
            CHECK((floats ? mz_update_f64(&s, i * 7919 % 3001) : mz_update_i64(&s, i * 7919 % 3001)) == MZ_OK); \
        CHECK(mz_serialize(&s, false, (uint8_t *)&again, 0, &size) == MZ_BUFFER && size > 100); \
        image = malloc(size + 8), other = malloc(size + 8); \
        CHECK(mz_serialize(&s, false, image, size - 1, &again) == MZ_BUFFER && again == size); \
        CHECK(mz_serialize(&s, false, image, size, &again) == MZ_OK && again == size); \
        CHECK(mz_serialize(&s, true, other, size + 8, &plain) == MZ_OK && plain + 8 == size && !memcmp(image + 8, other, plain)); \
        CHECK(!memcmp(image, "MZQS\1", 5) && image[5] == ID && image[6] == floats && image[7] == 0); \
        for (uint64_t cut = 0; cut < size; cut++) { \
            memcpy(other, image, cut); \
            CHECK(mz_deserialize(&t, ID == 2, other, cut, 1) == MZ_INVALID_DATA); \
        } \
        memcpy(other, image, size); \
        other[size] = 0; \
        CHECK(mz_deserialize(&t, ID == 2, other, size + 1, 1) == MZ_INVALID_DATA); \
        for (int i = 0; i < 8; i++) { \
            memcpy(other, image, size); \
            other[i] ^= i == 6 ? 2 : 3; \
            CHECK(mz_deserialize(&t, ID == 2, other, size, 1) == MZ_INVALID_DATA); \
        } \
        /* forged images are refused or read, never worse */ \
        for (uint64_t i = 0; i < size * 8; i += 3) { \
            memcpy(other, image, size); \
            other[i / 8] ^= 1 << i % 8; \
            mz_sketch forged = {0}; \
            int32_t answer = mz_deserialize(&forged, ID == 2, other, size, 1); \
            CHECK(answer == MZ_OK || answer == MZ_INVALID_DATA || answer == MZ_OUT_OF_MEMORY); \
            if (answer == MZ_OK) { \
                CHECK((image[6] == other[6]) == !(floats ? mz_update_f64(&forged, 1) : mz_update_i64(&forged, 1))); \
            } \
            mz_free(&forged); \
        } \
        CHECK(mz_info(&t, &info) == MZ_OK && info.n == 0); \
        CHECK(mz_deserialize(&t, ID == 2, image, size, 1) == MZ_OK && mz_info(&t, &info) == MZ_OK && info.n == 3000 && info.floats == floats); \
        CHECK(mz_deserialize(&t, ID == 2, image + 8, plain, 1) == MZ_OK && mz_info(&t, &info) == MZ_OK && info.n == 3000 && !info.floats); \
        free(image); \
        free(other); \
        mz_free(&s); \
        mz_free(&t); \
    } \
    static void F##_family(void) { \
        F##_handles(); \
        F##_answers(); \
        F##_floats(); \
        F##_images(false); \
        F##_images(true); \
    }
#define NEW_KLL(s, floats) mz_kll_new(&s, 200, floats, 1)
#define NEW_REQ(s, floats) mz_req_new(&s, 12, true, floats, 1)
BOTH(kll, 1, NEW_KLL)
BOTH(req, 2, NEW_REQ)

static void kll_alone(void) {
    mz_sketch s = {0}, t = {0};
    mz_info_t info;
    uint64_t w, n;
    double d;
    CHECK(mz_kll_new(&s, 7, false, 1) == MZ_INVALID_ARGUMENT && s.at == NULL);
    CHECK(mz_kll_new(&s, 65535, false, 1) == MZ_OK && mz_info(&s, &info) == MZ_OK && info.k == 65535 && !info.high);
    CHECK(mz_update_weighted_i64(&s, 3, 0) == MZ_INVALID_ARGUMENT);
    CHECK(mz_update_weighted_i64(&s, 3, (uint64_t)1 << 61) == MZ_INVALID_ARGUMENT);
    CHECK(mz_update_weighted_i64(&s, 3, 1000) == MZ_OK && mz_update_i64(&s, 5) == MZ_OK);
    CHECK(mz_rank_i64(&s, 3, true, &w, &n) == MZ_OK && w == 1000 && n == 1001);
    CHECK(mz_update_weighted_f64(&s, 3, 2) == MZ_KIND && mz_update_weighted_f64(&s, NAN, 2) == MZ_KIND);
    /* as many items as 64 bits count */
    CHECK(mz_kll_new(&t, 8, false, 1) == MZ_OK);
    for (int i = 0; i < 8; i++) CHECK(mz_update_weighted_i64(&t, i, ((uint64_t)1 << 61) - 1) == MZ_OK);
    CHECK(mz_update_weighted_i64(&t, 9, 8) == MZ_INVALID_ARGUMENT && mz_update_weighted_i64(&t, 9, 7) == MZ_OK);
    CHECK(mz_update_i64(&t, 9) == MZ_INVALID_ARGUMENT && mz_merge(&t, &s) == MZ_INVALID_ARGUMENT);
    CHECK(mz_info(&t, &info) == MZ_OK && info.n == UINT64_MAX);
    mz_free(&t);
    CHECK(mz_kll_new(&t, 8, true, 1) == MZ_OK && mz_update_weighted_f64(&t, -0.0, 6) == MZ_OK);
    CHECK(mz_quantile_f64(&t, 1, 2, true, &d) == MZ_OK && d == 0 && !signbit(d));
    mz_free(&s);
    mz_free(&t);
}

static void req_alone(void) {
    static const uint16_t bad[] = {0, 2, 3, 5, 1025, 1026, 65535};
    mz_sketch s = {0}, t = {0};
    mz_info_t info;
    for (size_t i = 0; i < sizeof bad / sizeof *bad; i++)
        CHECK(mz_req_new(&s, bad[i], true, false, 1) == MZ_INVALID_ARGUMENT && s.at == NULL);
    CHECK(mz_req_new(&s, 1024, false, false, 1) == MZ_OK && mz_info(&s, &info) == MZ_OK && info.k == 1024 && !info.high);
    CHECK(mz_req_new(&t, 4, true, false, 1) == MZ_OK && mz_info(&t, &info) == MZ_OK && info.high);
    CHECK(mz_merge(&s, &t) == MZ_INVALID_ARGUMENT);
    CHECK(mz_update_weighted_i64(&t, 3, 2) == MZ_KIND && mz_info(&t, &info) == MZ_OK && info.n == 0);
    mz_free(&s);
    mz_free(&t);
}

/* Nothing of one family is taken for one of the other. */
static void families(void) {
    mz_sketch k = {0};
    mz_sketch r = {0};
    mz_info_t info;
    uint8_t buffer[4096];
    uint64_t size;
    CHECK(mz_kll_new(&k, 200, false, 1) == MZ_OK && mz_req_new(&r, 12, true, false, 1) == MZ_OK);
    for (int plain = 0; plain < 2; plain++) {
        CHECK(mz_serialize(&k, plain, buffer, sizeof buffer, &size) == MZ_OK);
        CHECK(mz_deserialize(&r, true, buffer, size, 1) == MZ_INVALID_DATA);
        CHECK(mz_serialize(&r, plain, buffer, sizeof buffer, &size) == MZ_OK);
        CHECK(mz_deserialize(&k, false, buffer, size, 1) == MZ_INVALID_DATA);
        CHECK(mz_deserialize(&k, true, buffer, size, 1) == MZ_OK && mz_info(&k, &info) == MZ_OK && info.req);
        CHECK(mz_merge(&k, &r) == MZ_OK && mz_kll_new(&k, 200, false, 1) == MZ_OK);
        CHECK(mz_update_i64(&r, 3) == MZ_OK && mz_merge(&k, &r) == MZ_KIND && mz_merge(&r, &k) == MZ_KIND);
        CHECK(mz_info(&k, &info) == MZ_OK && info.n == 0 && !info.req && mz_reset(&r) == MZ_OK);
    }
    mz_free(&k);
    mz_free(&r);
}

int main(void) {
    kll_family();
    req_family();
    kll_alone();
    req_alone();
    families();
    puts(failed ? "calls: FAILED" : "calls: as they should be");
    return failed;
}
