// Times the store's parts at a full store, on a thread with a stack of 128 KiB. Built and run by ./run.
#include <pthread.h>
#include <stdint.h>
#include <stdio.h>
#include <stdlib.h>
#include <string.h>
#include <time.h>

size_t bench_codec(const uint8_t *image, size_t len, uint8_t *out, size_t room);
uint64_t bench_sync(const uint8_t *image, size_t len, uint32_t rounds);
uint64_t bench_rename(const uint8_t *image, size_t len, size_t at, uint32_t rounds);
uint64_t bench_copy(const uint8_t *image, size_t len, size_t at, size_t to, uint32_t rounds);
uint64_t bench_rename_dir(const uint8_t *image, size_t len, size_t at, uint32_t rounds);

// The best of so many short turns is taken: a turn in which nothing else ran on the core.
static const int turns = 500;

static uint8_t image[65536], out[65536];
static size_t len;

static double now(void) {
    struct timespec t;
    clock_gettime(CLOCK_MONOTONIC, &t);
    return t.tv_sec * 1e6 + t.tv_nsec / 1e3;
}

static void field(int tag, size_t n) {
    image[len++] = tag;
    image[len++] = n % 256;
    image[len++] = n / 256;
}

// A name of so many bytes that ends in two letters for k.
static void name(int k, size_t n) {
    memset(image + len, 'n', n);
    image[len + n - 2] = 'a' + k / 26;
    image[len + n - 1] = 'a' + k % 26;
    len += n;
}

static void file(int tag, int k, size_t n) {
    field(tag, 4 + n);
    image[len++] = 7;
    memset(image + len, 0, 3);
    len += 3;
    name(k, n);
}

// 16 directories, 128 files, 32 staging files, 6,952 log bytes, names of n bytes.
static void full(size_t n) {
    len = 0;
    for (int d = 0; d < 16; d++) {
        field(0x10, n);
        name(d, n);
        for (int f = 0; f < 8; f++) file(0x11, f, n);
    }
    for (int s = 0; s < 32; s++) file(0x12, s, n);
    field(0x13, 6952);
    memset(image + len, 0x5a, 6952);
    len += 6952;
    field(0x14, 0);
}

// The time of one of so many steps, in best, unless it was less before.
static void lower(double *best, double start, uint32_t steps) {
    double t = (now() - start) / steps;
    if (t < *best) *best = t;
}

// Steps at a full store whose names have n bytes, all but the last two the same. A copy goes from the ninth directory to the tenth and back,
// where a file of its name stands; the ninth is renamed to its backup name and back.
static void stepped(size_t n) {
    const uint32_t steps = 4000, moves = 400;
    const uint64_t budget = 1000000000;
    double sync = 1e9, rename = 1e9, copy = 1e9, dir = 1e9;
    full(n);
    for (int turn = 0; turn < turns; turn++) {
        double t = now();
        if (bench_sync(image, len, steps) != budget - steps) exit(1);
        lower(&sync, t, steps);
        t = now();
        if (bench_rename(image, len, 76, steps / 2) != budget - steps) exit(1);
        lower(&rename, t, steps);
        t = now();
        if (bench_copy(image, len, 76, 85, steps / 2) != budget - steps) exit(1);
        lower(&copy, t, steps);
        t = now();
        if (bench_rename_dir(image, len, 72, moves / 2) != budget - moves) exit(1);
        lower(&dir, t, moves);
    }
    printf("names of %zu bytes: sync step %.2f us, rename step %.2f us, copy %.2f us, directory rename %.2f us\n", n, sync, rename, copy, dir);
}

static void *timed(void *unused) {
    const uint32_t codecs = 100;
    full(64);
    double best = 1e9;
    for (int turn = 0; turn < turns; turn++) {
        double t = now();
        for (uint32_t i = 0; i < codecs; i++)
            if (bench_codec(image, len, out, sizeof out) != len) exit(1);
        lower(&best, t, codecs);
    }
    if (memcmp(image, out, len)) exit(1);
    printf("decode and encode of a full image (%zu bytes): %.1f us\n", len, best);
    stepped(12);
    stepped(60);
    return unused;
}

int main(void) {
    pthread_attr_t a;
    pthread_t t;
    pthread_attr_init(&a);
    pthread_attr_setstacksize(&a, 128 * 1024);
    if (pthread_create(&t, &a, timed, 0)) return 1;
    pthread_join(t, 0);
    printf("all within a stack of 128 KiB\n");
    return 0;
}
