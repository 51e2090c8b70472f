// Plain loops over the blocks of a column of 1,000,000 numbers of 17 bits, to compare times with: least, greatest and sum of
// all rows, and of 1,000 rows in the middle. The blocks are those of pack.c. Words: ROUNDS.
#define main pack_main
#include "pack.c"
#undef main

enum { ROWS = 1000000, BLOCKS = (ROWS + 127) / 128, FROM = 499500, TO = 500500 };

typedef struct { int64_t least, greatest; wide sum; } gauge;

// The values of a plain block from a place up to another.
static void add(const uint8_t *bytes, size_t from, size_t to, gauge *all) {
    int width = bytes[26];
    uint64_t offset = get8(bytes + 10), factor = get8(bytes + 18), mask = width == 64 ? ~0ull : (1ull << width) - 1;
    uint64_t words[130] = {0};
    memcpy(words, bytes + 27, (bytes[0] * width + 7) / 8);
    for (size_t i = from; i < to; i++) {
        size_t at = i * width;
        wide pair = words[at / 64] | (wide)words[at / 64 + 1] << 64;
        int64_t value = (int64_t)(offset + factor * ((uint64_t)(pair >> (at % 64)) & mask));
        if (value < all->least) all->least = value;
        if (all->greatest < value) all->greatest = value;
        all->sum += (wide)value;
    }
}

static gauge fold(uint8_t *const *places, size_t from, size_t to) {
    gauge all = {INT64_MAX, INT64_MIN, 0};
    while (from < to) {
        size_t block = from / 128, end = (block + 1) * 128;
        if (to < end) end = to;
        add(places[block], from - block * 128, end - block * 128, &all);
        from = end;
    }
    return all;
}

static double time_of(uint8_t *const *places, size_t from, size_t to, long rounds, uint64_t *sum) {
    struct timespec a, b;
    clock_gettime(CLOCK_PROCESS_CPUTIME_ID, &a);
    for (long k = 0; k < rounds; k++) {
        gauge all = fold(places, from, to);
        *sum += (uint64_t)all.sum + (uint64_t)all.greatest;
        __asm__ volatile("" ::: "memory");
    }
    clock_gettime(CLOCK_PROCESS_CPUTIME_ID, &b);
    return ((b.tv_sec - a.tv_sec) * 1e6 + (b.tv_nsec - a.tv_nsec) / 1e3) / rounds;
}

int main(int argc, char **argv) {
    if (argc != 2) return 1;
    long rounds = atol(argv[1]);
    uint8_t *bytes = malloc(BLOCKS * 1067), *at = bytes, *places[BLOCKS];
    uint64_t seed = 88172645463325252ull, sum = 0;
    if (!bytes) return 1;
    for (int block = 0; block < BLOCKS; block++) {
        int64_t values[128];
        size_t n = block + 1 < BLOCKS ? 128 : ROWS - 128 * (BLOCKS - 1);
        for (size_t i = 0; i < n; i++) {
            seed ^= seed << 13; seed ^= seed >> 7; seed ^= seed << 17;
            values[i] = (int64_t)(seed >> 47);
        }
        places[block] = at;
        at += pack(values, n, at);
    }
    double all = time_of(places, 0, ROWS, rounds, &sum), part = time_of(places, FROM, TO, rounds * 1000, &sum);
    printf("C, all rows: %.2f us; 1,000 rows: %.2f us (sum %llu)\n", all, part, (unsigned long long)sum);
}
