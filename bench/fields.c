// What any command pays that reads a log by group: it reads lines, finds two fields between blanks, parses the number, looks the
// key up, and keeps how many numbers there were and the greatest. No sketch. Usage: fields KEY VALUE < LOG, counted from 1.
#include <stdint.h>
#include <stdio.h>
#include <stdlib.h>
#include <string.h>
#include <unistd.h>

struct group {
    char *key;
    size_t len;
    uint64_t hash, n;
    int64_t most;
};

enum { SLOTS = 1 << 18, AHEAD = 1 << 16 };
static struct group groups[SLOTS];

static inline uint64_t hash_of(const char *key, size_t len) {
    uint64_t hash = 0x9E3779B97F4A7C15ull ^ len, word;
    for (; len >= 8; key += 8, len -= 8) {
        memcpy(&word, key, 8);
        hash = (hash ^ word) * 0xff51afd7ed558ccdull;
        hash ^= hash >> 32;
    }
    word = 0;
    memcpy(&word, key, len);
    hash = (hash ^ word) * 0xff51afd7ed558ccdull;
    return hash ^ hash >> 32;
}

static inline struct group *find(const char *key, size_t len) {
    uint64_t hash = hash_of(key, len);
    for (size_t at = hash % SLOTS;; at = (at + 1) % SLOTS) {
        struct group *it = groups + at;
        if (!it->key) {
            *it = (struct group){malloc(len + 1), len, hash, 0, INT64_MIN};
            memcpy(it->key, key, len);
            return it;
        }
        if (it->hash == hash && it->len == len && !memcmp(it->key, key, len)) return it;
    }
}

static inline int is_blank(char byte) { return byte == ' ' || byte == '\t'; }

// Thousandths.
static inline int64_t number(const char *at, const char *end) {
    int is_negative = at < end && *at == '-', decimals = -1;
    int64_t it = 0;
    for (at += is_negative; at < end; at++) {
        if (*at == '.') {
            decimals = 0;
        } else {
            it = it * 10 + (*at - '0');
            if (decimals >= 0) decimals++;
        }
    }
    for (int i = decimals < 0 ? 0 : decimals; i < 3; i++) it *= 10;
    return is_negative ? -it : it;
}

static void take(const char *at, const char *end, int key, int value) {
    const char *begins[2] = {end, end}, *ends[2] = {end, end};
    for (int field = 1; field <= key || field <= value; field++) {
        while (at < end && is_blank(*at)) at++;
        const char *begin = at;
        while (at < end && !is_blank(*at)) at++;
        if (field == key) begins[0] = begin, ends[0] = at;
        if (field == value) begins[1] = begin, ends[1] = at;
    }
    int64_t it = number(begins[1], ends[1]);
    struct group *group = find(begins[0], (size_t)(ends[0] - begins[0]));
    group->n++;
    if (it > group->most) group->most = it;
}

int main(int count, char **words) {
    static char ahead[2 * AHEAD];
    size_t have = 0;
    ssize_t more;
    if (count != 3) return 2;
    int key = atoi(words[1]), value = atoi(words[2]);
    while ((more = read(0, ahead + have, AHEAD)) > 0) {
        char *at = ahead, *end = ahead + have + more, *feed;
        for (; (feed = memchr(at, '\n', (size_t)(end - at))); at = feed + 1) take(at, feed, key, value);
        have = (size_t)(end - at);
        memmove(ahead, at, have);
    }
    for (size_t i = 0; i < SLOTS; i++) {
        if (groups[i].key) printf("%.*s %lu %ld\n", (int)groups[i].len, groups[i].key, groups[i].n, groups[i].most);
    }
}
