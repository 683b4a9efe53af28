// Times the 33 checksums of a full log: by the port's two functions, by C with the same table, and by zlib and crc32fast where they are at hand.
// Built and run by ./checksum-run.
#include <stdint.h>
#include <stdio.h>
#include <stdlib.h>
#include <string.h>
#include <time.h>
#ifdef ZLIB
#include <zlib.h>
#endif

uint32_t bench_checksum(const uint8_t *s, size_t len);
uint32_t bench_checksum_bit_by_bit(const uint8_t *s, size_t len);
size_t bench_read_wal(const uint8_t *log, size_t len);
#ifdef CRC32FAST
uint32_t crc32fast_hash(const uint8_t *s, size_t len);
#endif

// The best of so many turns is taken: a turn in which nothing else ran on the core.
static const int turns = 5000;

// The longest log: a header, and 32 marked Writes with three names of 64 bytes each.
enum { header = 8, head = 8, payload = 209, entries = 32, size = header + entries * (head + payload), summed = 2 + entries * payload };

static uint8_t log_bytes[size];
static uint32_t table[256];

static double now(void) {
    struct timespec t;
    clock_gettime(CLOCK_MONOTONIC, &t);
    return t.tv_sec * 1e9 + t.tv_nsec;
}

static uint8_t *payload_of(int k) { return log_bytes + header + k * (head + payload) + head; }

static void put_u32(uint8_t *to, uint32_t x) {
    for (int i = 0; i < 4; i++) to[i] = x >> 8 * i;
}

static uint8_t *put_name(uint8_t *to, int tag, int k) {
    memcpy(to, (uint8_t[]){tag, 64, 0}, 3);
    for (int i = 0; i < 64; i++) to[3 + i] = 'a' + (i * 7 + tag + k) % 26;
    return to + 67;
}

static void fill(void) {
    memcpy(log_bytes, "\xca\x01", 2);
    put_u32(log_bytes + 4, bench_checksum(log_bytes, 2));
    for (int k = 0; k < entries; k++) {
        uint8_t *p = payload_of(k);
        memcpy(p, "\x01\x01\x00\x07", 4);
        memcpy(put_name(put_name(put_name(p + 4, 2, k), 3, k), 4, k), "\x07\x01\x00\x01", 4);
        put_u32(p - head, bench_checksum(p, payload));
        put_u32(p - head + 4, payload);
    }
    for (uint32_t b = 0; b < 256; b++) {
        uint32_t c = b;
        for (int i = 0; i < 8; i++) c = c >> 1 ^ (c & 1 ? 0xEDB88320 : 0);
        table[b] = c;
    }
}

static uint32_t fed(uint32_t c, uint8_t b) { return c >> 8 ^ table[(c ^ b) & 255]; }

static uint32_t in_c(const uint8_t *s, size_t len) {
    uint32_t c = ~0u;
    for (size_t i = 0; i < len; i++) c = fed(c, s[i]);
    return ~c;
}

// Four bytes are added to the register at once, and it is then shifted by a byte four times.
static uint32_t by_fours(const uint8_t *s, size_t len) {
    uint32_t c = ~0u;
    size_t i = 0;
    for (; i + 4 <= len; i += 4) {
        uint32_t w;
        memcpy(&w, s + i, 4);
        c = fed(fed(fed(fed(c ^ w, 0), 0), 0), 0);
    }
    for (; i < len; i++) c = fed(c, s[i]);
    return ~c;
}

#ifdef ZLIB
static uint32_t zlib_hash(const uint8_t *s, size_t len) { return crc32(0, s, len); }
#endif

// The sum of the log's checksums, one behind the other; of its header two bytes are summed.
static uint32_t sum(uint32_t hash(const uint8_t *, size_t)) {
    uint32_t all = hash(log_bytes, 2);
    for (int k = 0; k < entries; k++) all += hash(payload_of(k), payload);
    return all;
}

// The same with four payloads in turn, byte by byte.
static uint32_t sum_in_turn(void) {
    uint32_t all = in_c(log_bytes, 2);
    for (int k = 0; k < entries; k += 4) {
        const uint8_t *s = payload_of(k), *t = payload_of(k + 1), *u = payload_of(k + 2), *v = payload_of(k + 3);
        uint32_t c = ~0u, d = ~0u, e = ~0u, f = ~0u;
        for (int i = 0; i < payload; i++) c = fed(c, s[i]), d = fed(d, t[i]), e = fed(e, u[i]), f = fed(f, v[i]);
        all += ~c + ~d + ~e + ~f;
    }
    return all;
}

static void row(const char *what, double best, size_t bytes) { printf("%s: %.2f us, %.2f ns a byte\n", what, best / 1e3, best / bytes); }

// The best time of the log's checksums, by a function or, without one, four in turn.
static double checksums(uint32_t hash(const uint8_t *, size_t)) {
    double best = 1e9;
    uint32_t right = sum(in_c);
    for (int turn = 0; turn < turns; turn++) {
        double t = now();
        uint32_t all = hash ? sum(hash) : sum_in_turn();
        t = now() - t;
        if (all != right) exit(1);
        if (t < best) best = t;
    }
    return best;
}

static double reading(void) {
    double best = 1e9;
    for (int turn = 0; turn < turns; turn++) {
        double t = now();
        size_t operations = bench_read_wal(log_bytes, size);
        t = now() - t;
        if (operations != entries) exit(1);
        if (t < best) best = t;
    }
    return best;
}

int main(void) {
    fill();
    row("the port, from the table", checksums(bench_checksum), summed);
    row("the port, bit by bit", checksums(bench_checksum_bit_by_bit), summed);
    row("C, from the table", checksums(in_c), summed);
    row("C, from the table, four bytes added at once", checksums(by_fours), summed);
    row("C, from the table, four checksums in turn", checksums(0), summed);
#ifdef ZLIB
    row("zlib " ZLIB_VERSION, checksums(zlib_hash), summed);
#else
    puts("zlib: not there");
#endif
#ifdef CRC32FAST
    row("crc32fast " CRC32FAST, checksums(crc32fast_hash), summed);
#else
    puts("crc32fast: not there");
#endif
    row("the log's reading (wal::read_wal), its checksums included", reading(), size);
    return 0;
}
