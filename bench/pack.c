// The block format of column_pack in plain C, to compare times with: the same checks, the same cases.
// Words: CASE SIZE, as pack-17 100000000.
#include <stdint.h>
#include <stdio.h>
#include <stdlib.h>
#include <string.h>
#include <time.h>

typedef unsigned __int128 wide;
static const uint64_t SIGN = 1ull << 63;

static uint64_t gcd(uint64_t a, uint64_t b) { while (b) { uint64_t r = a % b; a = b; b = r; } return a; }
static int width_of(uint64_t x) { return x ? 64 - __builtin_clzll(x) : 0; }
static void put8(uint8_t *p, uint64_t x) { x = __builtin_bswap64(x); memcpy(p, &x, 8); }
static uint64_t get8(const uint8_t *p) { uint64_t x; memcpy(&x, p, 8); return __builtin_bswap64(x); }

static size_t pack(const int64_t *values, size_t n, uint8_t *out) {
    uint64_t places[128], residuals[128];
    int rises = 0, falls = 0;
    for (size_t i = 0; i < n; i++) places[i] = (uint64_t)values[i] ^ SIGN;
    for (size_t i = 1; i < n; i++) { rises |= places[i - 1] < places[i]; falls |= places[i] < places[i - 1]; }
    int kind = rises == falls ? 0 : rises ? 1 : 2;
    size_t from = kind != 0;
    residuals[0] = 0;
    if (kind == 0) memcpy(residuals, places, n * 8);
    else for (size_t i = 1; i < n; i++) residuals[i] = kind == 1 ? places[i] - places[i - 1] : places[i - 1] - places[i];
    uint64_t low = residuals[from];
    for (size_t i = from; i < n; i++) if (residuals[i] < low) low = residuals[i];
    for (size_t i = from; i < n; i++) residuals[i] -= low;
    uint64_t factor = 0;
    for (size_t i = from; i < n && factor != 1; i++) factor = gcd(residuals[i], factor);
    if (factor > 1) for (size_t i = from; i < n; i++) residuals[i] /= factor; else factor = 1;
    uint64_t most = 0;
    for (size_t i = 0; i < n; i++) if (most < residuals[i]) most = residuals[i];
    int width = width_of(most);
    out[0] = n; out[1] = kind;
    put8(out + 2, kind ? (uint64_t)values[0] : 0);
    put8(out + 10, kind ? low : low ^ SIGN);
    put8(out + 18, factor);
    out[26] = width;
    wide pending = 0; int filled = 0; uint8_t *p = out + 27;
    for (size_t i = 0; i < n; i++) {
        pending |= (wide)residuals[i] << filled;
        filled += width;
        if (filled >= 64) { uint64_t w = (uint64_t)pending; memcpy(p, &w, 8); p += 8; pending >>= 64; filled -= 64; }
    }
    uint64_t w = (uint64_t)pending; memcpy(p, &w, 8);
    return 27 + (n * width + 7) / 8;
}

static int unpack(const uint8_t *bytes, size_t len, int64_t *into) {
    if (len < 27) return -1;
    size_t n = bytes[0]; int kind = bytes[1], width = bytes[26];
    if (n == 0 || n > 128 || kind > 2 || width > 64 || len != 27 + (n * width + 7) / 8) return -1;
    size_t bits = n * width;
    if (bits % 8 && bytes[len - 1] >> (bits % 8)) return -1;
    uint64_t first = get8(bytes + 2), offset = get8(bytes + 10), factor = get8(bytes + 18);
    uint64_t words[130] = {0}, residuals[128] = {0};
    memcpy(words, bytes + 27, len - 27);
    uint64_t mask = width == 64 ? ~0ull : (1ull << width) - 1;
    if (width) for (size_t i = 0; i < n; i++) {
        size_t at = i * width;
        wide pair = words[at / 64] | (wide)words[at / 64 + 1] << 64;
        residuals[i] = (uint64_t)(pair >> (at % 64)) & mask;
    }
    size_t from = kind != 0;
    uint64_t most = 0, common = 0; wide total = 0; int zero = 0, rises = 0, falls = 0;
    for (size_t i = from; i < n; i++) { if (most < residuals[i]) most = residuals[i]; zero |= residuals[i] == 0; total += residuals[i]; }
    for (size_t i = from + 1; i < n; i++) { rises |= residuals[i - 1] < residuals[i]; falls |= residuals[i] < residuals[i - 1]; }
    for (size_t i = from; i < n && common != 1; i++) common = gcd(residuals[i], common);
    if (kind ? residuals[0] : first) return -1;
    if (!zero || !(common == 1 ? factor != 0 : common == 0 && factor == 1) || width != width_of(most)) return -1;
    wide reach = (wide)factor * most;
    if (kind == 0) {
        uint64_t low = offset ^ SIGN;
        if (rises != falls || low + reach >= (wide)1 << 64) return -1;
        for (size_t i = 0; i < n; i++) into[i] = (int64_t)((low + factor * residuals[i]) ^ SIGN);
    } else {
        if (offset + reach >= (wide)1 << 64) return -1;
        wide rise = (wide)offset * (n - 1) + factor * total;
        uint64_t at = first ^ SIGN;
        if (kind == 2) at = ~at;
        if (rise == 0 || at + rise >= (wide)1 << 64) return -1;
        for (size_t i = 0; i < n; i++) {
            if (i) at += offset + factor * residuals[i];
            into[i] = (int64_t)((kind == 2 ? ~at : at) ^ SIGN);
        }
    }
    return (int)n;
}

int main(int argc, char **argv) {
    if (argc != 3) return 1;
    char what[16]; int width;
    if (sscanf(argv[1], "%15[a-z]-%d", what, &width) != 2) return 1;
    long size = atol(argv[2]);
    static int64_t lists[64][128]; static uint8_t blocks[64][1067]; size_t lens[64];
    uint64_t seed = 88172645463325252ull;
    for (int j = 0; j < 64; j++) for (int i = 0; i < 128; i++) {
        seed ^= seed << 13; seed ^= seed >> 7; seed ^= seed << 17;
        lists[j][i] = width ? (int64_t)(seed >> (64 - width)) : j;
    }
    for (int j = 0; j < 64; j++) lens[j] = pack(lists[j], 128, blocks[j]);
    uint64_t sum = 0; uint8_t out[1067]; int64_t back[128];
    struct timespec a, b; clock_gettime(CLOCK_PROCESS_CPUTIME_ID, &a);
    for (long k = 0; k < size / 8192; k++) for (int j = 0; j < 64; j++) {
        if (what[0] == 'p') { size_t l = pack(lists[j], 128, out); sum += out[l - 1] + l; }
        else { int n = unpack(blocks[j], lens[j], back); sum += n > 0 ? (uint64_t)back[n - 1] : 0; }
    }
    clock_gettime(CLOCK_PROCESS_CPUTIME_ID, &b);
    double ns = (b.tv_sec - a.tv_sec) * 1e9 + (b.tv_nsec - a.tv_nsec);
    printf("%s %ld: %.2f ns a value (sum %llu)\n", argv[1], size, ns / (size / 8192 * 8192), (unsigned long long)sum);
}
