/* db/a=7, a Write of 9 to a, its commit cut after each of its ten steps, and recovery: prints a's number for each cut, from the one
   before the first step; then the same update held, kept and reverted. Built and run by header.rs. */
#include "cda_storage.h"

#include <stdio.h>

#define BYTES(text) (const uint8_t *)text, sizeof text - 1
#define ROOM(output) output, sizeof output

static uint8_t a[CDA_STORAGE_IMAGE_ROOM], b[CDA_STORAGE_IMAGE_ROOM], cut[CDA_STORAGE_IMAGE_ROOM], step[CDA_STORAGE_STEP_ROOM];

int main(void) {
    size_t n = 0, m = 0, left = 0, field = 0;
    uint32_t cause;
    uint64_t at;
    if (cda_storage_begin(BYTES("\x10\x02\0db\x11\x05\0\x07\0\0\0a"), ROOM(a), &n) != CDA_STORAGE_DONE) return 1;
    if (cda_storage_begin(a, n, ROOM(b), &m) != CDA_STORAGE_TRANSACTION_BUSY) return 2;
    if (cda_storage_write(a, n, BYTES("db"), BYTES("a"), BYTES("s.tmp"), 9, ROOM(b), &m) != CDA_STORAGE_DONE) return 3;
    if (cda_storage_commit_step(b, m, 11, ROOM(cut), &left, ROOM(step), &field) != CDA_STORAGE_PAST_THE_END) return 4;
    for (at = 0; at <= 10; at++) {
        if (cda_storage_commit_step(b, m, at, ROOM(cut), &left, ROOM(step), &field) != CDA_STORAGE_DONE) return 5;
        if (at == 4 && step[0] != 0x24) return 6;
        cause = 9;
        if (cda_storage_recover(cut, left, ROOM(a), &n, &cause) != CDA_STORAGE_DONE || cause != CDA_STORAGE_NOT_BROKEN) return 7;
        if (n != 13) return 8;
        printf("%u", (unsigned)(a[8] | a[9] << 8 | a[10] << 16 | (uint32_t)a[11] << 24));
    }
    if (cda_storage_log_cause(BYTES("\xCA\x01\0\0\xAD\x1D\xCB\x07?"), &cause) != CDA_STORAGE_DONE || cause != CDA_STORAGE_HEADER_SHORT) return 9;
    if (cda_storage_log_cause(BYTES("?"), &cause) != CDA_STORAGE_NO_WHOLE_LOG || cause != CDA_STORAGE_HEADER_SHORT) return 10;
    if (cda_storage_hold(b, m, ROOM(cut), &left) != CDA_STORAGE_DONE) return 11;
    if (cda_storage_begin(cut, left, ROOM(a), &n) != CDA_STORAGE_HELD_UPDATE) return 12;
    if (cda_storage_keep_step(cut, left, 0, ROOM(a), &n, ROOM(step), &field) != CDA_STORAGE_DONE || field != 0) return 13;
    if (cda_storage_keep(cut, left, ROOM(a), &n) != CDA_STORAGE_DONE || n != 13 || a[8] != 9) return 14;
    if (cda_storage_revert(cut, left, ROOM(a), &n, &cause) != CDA_STORAGE_DONE || n != 13 || a[8] != 7 || cause != CDA_STORAGE_NOT_BROKEN) return 15;
    if (cda_storage_revert_step(a, n, 1, ROOM(b), &m, ROOM(step), &field) != CDA_STORAGE_NOTHING_HELD) return 16;
    if (cda_storage_canonical_log(BYTES("\xCA\x01\1\2\xAD\x1D\xCB\x07"), ROOM(a), &n) != CDA_STORAGE_DONE || n != 8 || a[1] != 1 || a[2] + a[3] != 0) return 17;
    if (cda_storage_canonical_log(BYTES("?"), ROOM(a), &n) != CDA_STORAGE_NO_WHOLE_LOG || n != 8) return 18;
    return 0;
}
