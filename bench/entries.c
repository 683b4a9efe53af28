// Runs each of the entries at a full store, on a thread with a stack of 128 KiB, and times it. Built and run by ./entries-run.
#include "cda_storage.h"
#include <pthread.h>
#include <stdint.h>
#include <stdio.h>
#include <stdlib.h>
#include <string.h>
#include <time.h>

typedef const uint8_t *Lent;

// The best of so many turns is taken: a turn in which nothing else ran on the core. The slowest cut is sought in so many passes over all cuts, of
// few turns each, so that a busy moment falls on no cut alone.
static const int turns = 500, passes = 30, few = 4;

// A plan has 3 steps, 2 for each Write, 16 directory syncs, 3 to the journal sync and 32 backups to remove: fewer than 128.
enum { directories = 16, writes = 32, longest = 128 };

typedef struct {
    uint8_t bytes[CDA_STORAGE_IMAGE_ROOM];
    size_t len;
} Image;

static Image base, open, cut, out, done;
static uint8_t step[CDA_STORAGE_STEP_ROOM];
static size_t step_len;
static uint32_t cause;

// Every name has this many bytes, all but the last two the same.
static size_t size;
static uint8_t collection[64], key[64], staged[64], keys[writes * (3 + 64)];
static size_t keys_len;

#define IN(i) (i).bytes, (i).len
#define OUT out.bytes, sizeof out.bytes, &out.len
#define STEP step, sizeof step, &step_len

static double now(void) {
    struct timespec t;
    clock_gettime(CLOCK_MONOTONIC, &t);
    return t.tv_sec * 1e6 + t.tv_nsec / 1e3;
}

static void want(const char *what, uint32_t got, uint32_t wanted) {
    if (got == wanted) return;
    printf("%s: answer %u in place of %u\n", what, got, wanted);
    exit(1);
}

// The time of the best of so many calls, each of which must give the wanted number.
#define BEST(best, count, what, call, wanted)          \
    double best = 1e9;                                 \
    for (int turn = 0; turn < (count); turn++) {       \
        double start = now();                          \
        uint32_t got = (call);                         \
        double took = now() - start;                   \
        want(what, got, wanted);                       \
        if (took < best) best = took;                  \
    }

#define TIMED(what, call, wanted)                      \
    do {                                               \
        BEST(best, turns, what, call, wanted)          \
        printf("  %-64s %8.2f us\n", what, best);      \
    } while (0)

// The name for k.
static Lent name(uint8_t *at, int k) {
    memset(at, 'n', size);
    at[size - 2] = 'a' + k / 26;
    at[size - 1] = 'a' + k % 26;
    return at;
}

static void field(int tag, size_t n) {
    base.bytes[base.len++] = tag;
    base.bytes[base.len++] = n % 256;
    base.bytes[base.len++] = n / 256;
}

static void file(int tag, int k) {
    field(tag, 4 + size);
    memcpy(base.bytes + base.len, "\7\0\0\0", 4);
    name(base.bytes + base.len + 4, k);
    base.len += 4 + size;
}

// 16 directories, so many files in the first and in each other one, so many staging files.
static void lay(int first, int other, int staging) {
    base.len = 0;
    for (int d = 0; d < directories; d++) {
        field(0x10, size);
        name(base.bytes + base.len, d);
        base.len += size;
        for (int f = 0; f < (d ? other : first); f++) file(0x11, f);
    }
    for (int s = 0; s < staging; s++) file(0x12, writes + s);
}

// Begins on what was laid out and records so many Writes to keys that stand, one directory after the other.
static void record(int count) {
    want("begin", cda_storage_begin(IN(base), OUT), 0);
    open = out;
    for (int w = 0; w < count; w++) {
        name(collection, w % directories), name(key, w / directories), name(staged, w);
        want("write", cda_storage_write(IN(open), collection, size, key, size, staged, size, 100 + w, OUT), 0);
        open = out;
    }
}

// Goes from field to field by their lengths and looks at nothing else: the least that a reading of the image in its order has to do.
static uint32_t walk(const Image *image) {
    const uint8_t *at = image->bytes, *end = at + image->len;
    while (at + 3 <= end) {
        uint16_t length;
        memcpy(&length, at + 1, sizeof length);
        at += 3 + length;
    }
    return at != end;
}

// The log of an image that has one, and its length.
static Lent log_of(const Image *image, size_t *length) {
    Lent at = image->bytes;
    while (*length = at[1] + 256 * at[2], *at != 0x13) at += 3 + *length;
    return at + 3;
}

// The files of the first directory with names in upper case.
static void raise_first(int count) {
    uint8_t *at = base.bytes + 3 + size;
    for (int f = 0; f < count; f++, at += 7 + size)
        for (size_t i = 0; i < size; i++) at[7 + i] -= 0x20;
}

// The names for 0 to 31 as fields 0x03.
static void lay_keys(void) {
    keys_len = 0;
    for (int k = 0; k < writes; k++) {
        keys[keys_len++] = 3, keys[keys_len++] = size, keys[keys_len++] = 0;
        name(keys + keys_len, k);
        keys_len += size;
    }
}

// One key and a set of 32 in a full store, without operations before.
static void deleted(const char *which) {
    char what[96];
    record(0);
    lay_keys();
    name(collection, 0), name(key, 31);
    snprintf(what, sizeof what, "delete, %s", which);
    TIMED(what, cda_storage_delete(IN(open), collection, size, key, size, OUT), 0);
    snprintf(what, sizeof what, "delete_keys of 32 keys, %s", which);
    TIMED(what, cda_storage_delete_keys(IN(open), collection, size, keys, keys_len, OUT), 0);
}

static void same(const char *what, const Image *a, const Image *b) {
    if (a->len == b->len && !memcmp(a->bytes, b->bytes, a->len)) return;
    printf("%s: another image\n", what);
    exit(1);
}

// The commit of 32 Writes with so many files in each directory, its plan, and the recovery of every cut; the slowest is timed again.
static void committed(int files, uint32_t answer) {
    char what[96];
    lay(files, files, 0);
    record(writes);
    snprintf(what, sizeof what, "commit of 32 Writes, %d files before, answer %u", directories * files, answer);
    TIMED(what, cda_storage_commit(IN(open), OUT), answer);
    done = out;

    uint64_t plan = 0, at = 0;
    while (cda_storage_commit_step(IN(open), plan + 1, OUT, STEP) == 0) plan++;
    if (plan >= longest) exit(1);
    snprintf(what, sizeof what, "commit_step, n = %ju, the plan's length", (uintmax_t)plan);
    TIMED(what, cda_storage_commit_step(IN(open), plan, OUT, STEP), 0);
    same("commit_step", &out, &done);
    want("commit_step past the plan", cda_storage_commit_step(IN(open), plan + 1, OUT, STEP), 16);

    double bests[longest];
    for (int pass = 0; pass < passes; pass++)
        for (uint64_t n = 0; n <= plan; n++) {
            want("commit_step", cda_storage_commit_step(IN(open), n, OUT, STEP), 0);
            cut = out;
            BEST(best, few, "recover", cda_storage_recover(IN(cut), OUT, &cause), 0)
            if (pass == 0 || best < bests[n]) bests[n] = best;
            if (n == 0) same("recovery of cut 0", &out, &base);
            if (n == plan) same("recovery after the last step", &out, &done);
        }
    for (uint64_t n = 1; n <= plan; n++)
        if (bests[n] > bests[at]) at = n;
    want("commit_step", cda_storage_commit_step(IN(open), at, OUT, STEP), 0);
    cut = out;
    snprintf(what, sizeof what, "recover, slowest cut of that commit, n = %ju", (uintmax_t)at);
    TIMED(what, cda_storage_recover(IN(cut), OUT, &cause), 0);
    done = out;
    for (plan = 0; cda_storage_recover_step(IN(cut), plan + 1, OUT, STEP) == 0;) plan++;
    snprintf(what, sizeof what, "recover_step at that cut, n = %ju, the plan's length", (uintmax_t)plan);
    TIMED(what, cda_storage_recover_step(IN(cut), plan, OUT, STEP), 0);
    same("recover_step", &out, &done);
}

// Every entry at 16 directories, 128 files, 32 staging files.
static void entries(size_t n) {
    size = n;
    printf("names of %zu bytes\n", n);

    lay(8, 8, 32);
    TIMED("begin", cda_storage_begin(IN(base), OUT), 0);

    lay(8, 8, 0);
    record(writes - 1);
    name(collection, 15), name(key, 7), name(staged, 31);
    TIMED("write, the 32nd operation and staging file", cda_storage_write(IN(open), collection, size, key, size, staged, size, 9, OUT), 0);

    lay(8, 8, 1);
    record(writes - 1);
    name(collection, 15), name(key, 7), name(staged, 16);
    TIMED("delete, the 32nd operation", cda_storage_delete(IN(open), collection, size, key, size, OUT), 0);
    TIMED("delete_all, the 32nd operation", cda_storage_delete_all(IN(open), collection, size, OUT), 0);
    TIMED("create_collection, the 32nd operation", cda_storage_create_collection(IN(open), staged, size, OUT), 0);
    TIMED("delete_collection, the 32nd operation", cda_storage_delete_collection(IN(open), collection, size, OUT), 0);
    name(key, 14);
    TIMED("copy_collection, the 32nd operation", cda_storage_copy_collection(IN(open), collection, size, key, size, OUT), 0);

    lay(38, 6, 32);
    deleted("the first operation");
    raise_first(38);
    deleted("the first operation, in another case");

    lay(8, 8, 0);
    record(writes);
    uint32_t pending = 0;
    TIMED("from field to field of the same image", walk(&open), 0);
    TIMED("has_pending_work", cda_storage_has_pending_work(IN(open), &pending), 0);
    TIMED("find_backup, none", cda_storage_find_backup(IN(open), OUT), 0);
    TIMED("inventory", cda_storage_inventory(IN(open), OUT), 0);
    want("pending", pending, 1);
    size_t length;
    Lent log = log_of(&open, &length);
    TIMED("log_cause of 32 Writes", cda_storage_log_cause(log, length, &cause), 0);
    want("cause", cause, 0);
    TIMED("rollback of 32 Writes", cda_storage_rollback(IN(open), OUT), 0);

    lay(128, 0, 32);
    name(collection, 0);
    TIMED("list_keys, 128 keys", cda_storage_list_keys(IN(base), collection, size, OUT), 0);
    want("bytes of the key list", out.len, 128 * (3 + size));

    // A Write to a key that stands keeps its backup until the log is gone: 96 files before are 128 in between, and 128 before are one too many.
    committed(6, 0);
    committed(8, 15);
}

static void *timed(void *unused) {
    entries(12);
    entries(58);
    return unused;
}

// The thread's stack is the upper half. What it touches is told by the mark that it overwrites, in the lower half too, where no guard would be met
// by a frame that reaches past it.
enum { room = 128 * 1024, mark = 0xa5 };
static _Alignas(4096) uint8_t stack[2 * room];

int main(void) {
    pthread_attr_t a;
    pthread_t t;
    memset(stack, mark, sizeof stack);
    pthread_attr_init(&a);
    if (pthread_attr_setstack(&a, stack + room, room) || pthread_create(&t, &a, timed, 0)) return 1;
    pthread_join(t, 0);
    size_t untouched = 0;
    while (stack[untouched] == mark) untouched++;
    size_t used = sizeof stack - untouched;
    printf("deepest use of the stack, printing included: %zu bytes\n", used);
    if (used > room) return 1;
    printf("all within a stack of 128 KiB\n");
    return 0;
}
