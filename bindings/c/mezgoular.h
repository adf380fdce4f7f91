/* mezgoular.h: the proved quantile sketches KLL and REQ, for C and C++.
 *
 * A sketch takes in a stream of numbers, keeps few of them, and answers which number stands at a given rank and which
 * rank a given number has. KLL treats all ranks alike; REQ keeps one end of the ranks exact.
 *
 * A handle is a struct of one pointer. Zero it before its first use (mz_sketch s = {0}), pass its address, never copy
 * it while it holds a sketch, and free it. A zeroed handle holds no sketch: a call that needs one answers
 * MZ_NO_SKETCH, mz_free does nothing, and mz_kll_new, mz_req_new, mz_clone and mz_deserialize fill it. On a handle that
 * holds a sketch these four free it once the new one is made; if they fail, the old one stays.
 *
 * What C owes, since nothing checks it: no pointer is null (an array of 0 items too: pass any valid address), no two
 * arguments overlap (so mz_merge of a handle with itself is not allowed), a bool is 0 or 1, and one thread at a time
 * uses a handle, also for queries. A handle whose bytes were changed, and a copy of one that was freed, are undefined
 * behaviour. Memory comes from malloc, realloc and free.
 *
 * A call answers MZ_OK, or MZ_EMPTY where an empty sketch has no answer, or an error below 0. After an error sketches
 * are as before, and so is what other pointers point to, but for `size` at MZ_BUFFER.
 *
 * Items are int64_t, or double if the sketch was made with floats = true; -0.0 counts as 0.0, NaN is refused. Ranks
 * are weights out of a total, never floats. Link with -lmezgoular. */
#ifndef MEZGOULAR_H
#define MEZGOULAR_H
#include <stdbool.h>
#include <stddef.h>
#include <stdint.h>
#include <string.h>
#ifdef __cplusplus
extern "C" {
#endif

enum {
    MZ_OK = 0,
    MZ_EMPTY = 1,             /* the sketch is empty, so there is no answer */
    MZ_INVALID_ARGUMENT = -1, /* k, a weight, a fraction, points that do not increase, a full sketch, two accuracies */
    MZ_INVALID_DATA = -2,     /* the bytes are no image of this family */
    MZ_OUT_OF_MEMORY = -3,
    MZ_NO_SKETCH = -4, /* a zeroed or freed handle */
    MZ_KIND = -5,      /* int64_t asked of a sketch of doubles, or the other way round; or KLL and REQ mixed */
    MZ_BUFFER = -6,    /* the buffer is too small (size says what it takes), or weights has a wrong count */
    MZ_NAN = -7
};

typedef struct {
    void *at;
} mz_sketch;

typedef struct {
    uint64_t n;        /* items taken in */
    uint64_t retained; /* items kept */
    uint32_t k;
    bool floats; /* the items are doubles */
    bool req;    /* REQ, else KLL */
    bool high;   /* REQ: high ranks are exact, else low ones; KLL: false */
} mz_info_t;

/* Makes an empty KLL sketch. k is 8 to 65535: a greater k keeps more items and is more accurate. The seed gives the
 * coins. */
int32_t mz_kll_new(mz_sketch *s, uint16_t k, bool floats, uint64_t seed);
/* Makes an empty REQ sketch. k is even, 4 to 1024. `high`: the greatest items are exact, else the least. */
int32_t mz_req_new(mz_sketch *s, uint16_t k, bool high, bool floats, uint64_t seed);
/* Makes a copy of the sketch of `from`, with coins of its own from the seed. */
int32_t mz_clone(mz_sketch *s, mz_sketch *from, uint64_t seed);
/* Empties the sketch; its family, its k and the kind of its items stay. */
int32_t mz_reset(mz_sketch *s);
/* Frees the sketch and zeroes the handle. */
void mz_free(mz_sketch *s);
int32_t mz_info(mz_sketch *s, mz_info_t *info);

/* Takes in what `from` holds. Both are of one family, one kind of items and, for REQ, of one `high`. */
int32_t mz_merge(mz_sketch *s, mz_sketch *from);

/* Writes the image of the sketch, after a frame of 8 bytes unless `plain`: "MZQS", 1, 1 for KLL or 2 for REQ, 1 for
 * doubles, 0. `size` becomes the number of bytes that it takes, also where `buffer` is too small. */
int32_t mz_serialize(mz_sketch *s, bool plain, uint8_t *buffer, size_t capacity, uint64_t *size);
/* Reads an image of REQ, or of KLL unless `req`: framed, or plain, whose items count as int64_t. The bytes are the
 * image, and nothing follows it. The seed gives the coins; those that an image of REQ does not hold are drawn anew, so
 * that ranks stay unbiased. */
int32_t mz_deserialize(mz_sketch *s, bool req, const uint8_t *bytes, size_t count, uint64_t seed);

/* The calls about items, for int64_t below with _i64 and for double with _f64. Here a double is passed as the int64_t
 * of the same bits, with floats = true. */

/* Takes in one item. */
int32_t mz_update(mz_sketch *s, bool floats, int64_t item);
/* Takes in all items, or none if it fails. */
int32_t mz_update_all(mz_sketch *s, bool floats, const int64_t *items, size_t count);
/* Takes in an item that stands for `weight` equal ones, from 1 to 2^61 - 1. Only KLL has weights. */
int32_t mz_update_weighted(mz_sketch *s, bool floats, int64_t item, uint64_t weight);
/* The weight of the items at most `item` (inclusive) or below it, out of the total. */
int32_t mz_rank(mz_sketch *s, bool floats, int64_t item, bool inclusive, uint64_t *weight, uint64_t *total);
/* The item at the fraction weight / total: 1 / 2 is the median, 0 / 1 the least, 1 / 1 the greatest. */
int32_t mz_quantile(mz_sketch *s, bool floats, uint64_t weight, uint64_t total, bool inclusive, int64_t *item);
/* The ranks of the points, which strictly increase, and last the total (a cdf); with `steps` the weights between them
 * instead (a pmf). `weights` has room for exactly count + 1. */
int32_t mz_masses(mz_sketch *s, bool floats, const int64_t *points, size_t count, bool inclusive, bool steps,
                  uint64_t *weights, size_t weight_count);
/* The least and the greatest item of the stream. */
int32_t mz_ends(mz_sketch *s, bool floats, int64_t *least, int64_t *greatest);

static inline int32_t mz_update_i64(mz_sketch *s, int64_t item) { return mz_update(s, false, item); }
static inline int32_t mz_update_all_i64(mz_sketch *s, const int64_t *items, size_t count) {
    return mz_update_all(s, false, items, count);
}
static inline int32_t mz_update_weighted_i64(mz_sketch *s, int64_t item, uint64_t weight) {
    return mz_update_weighted(s, false, item, weight);
}
static inline int32_t mz_rank_i64(mz_sketch *s, int64_t item, bool inclusive, uint64_t *weight, uint64_t *total) {
    return mz_rank(s, false, item, inclusive, weight, total);
}
static inline int32_t mz_quantile_i64(mz_sketch *s, uint64_t weight, uint64_t total, bool inclusive, int64_t *item) {
    return mz_quantile(s, false, weight, total, inclusive, item);
}
static inline int32_t mz_masses_i64(mz_sketch *s, const int64_t *points, size_t count, bool inclusive, bool steps,
                                    uint64_t *weights, size_t weight_count) {
    return mz_masses(s, false, points, count, inclusive, steps, weights, weight_count);
}
static inline int32_t mz_ends_i64(mz_sketch *s, int64_t *least, int64_t *greatest) {
    return mz_ends(s, false, least, greatest);
}

static inline int64_t mz_bits_of(double item) {
    int64_t bits;
    memcpy(&bits, &item, sizeof bits);
    return bits;
}
static inline int32_t mz_update_f64(mz_sketch *s, double item) { return mz_update(s, true, mz_bits_of(item)); }
static inline int32_t mz_update_all_f64(mz_sketch *s, const double *items, size_t count) {
    return mz_update_all(s, true, (const int64_t *)(const void *)items, count);
}
static inline int32_t mz_update_weighted_f64(mz_sketch *s, double item, uint64_t weight) {
    return mz_update_weighted(s, true, mz_bits_of(item), weight);
}
static inline int32_t mz_rank_f64(mz_sketch *s, double item, bool inclusive, uint64_t *weight, uint64_t *total) {
    return mz_rank(s, true, mz_bits_of(item), inclusive, weight, total);
}
static inline int32_t mz_quantile_f64(mz_sketch *s, uint64_t weight, uint64_t total, bool inclusive, double *item) {
    int64_t bits;
    int32_t answer = mz_quantile(s, true, weight, total, inclusive, &bits);
    if (answer == MZ_OK) memcpy(item, &bits, sizeof bits);
    return answer;
}
static inline int32_t mz_masses_f64(mz_sketch *s, const double *points, size_t count, bool inclusive, bool steps,
                                    uint64_t *weights, size_t weight_count) {
    return mz_masses(s, true, (const int64_t *)(const void *)points, count, inclusive, steps, weights, weight_count);
}
static inline int32_t mz_ends_f64(mz_sketch *s, double *least, double *greatest) {
    int64_t low, high;
    int32_t answer = mz_ends(s, true, &low, &high);
    if (answer == MZ_OK) {
        memcpy(least, &low, sizeof low);
        memcpy(greatest, &high, sizeof high);
    }
    return answer;
}

#ifdef __cplusplus
}
#endif
#endif
