/* State and sectors told with lengths that are not theirs, and the order of the answers; then every register number. */
#include "checks.h"

enum { BULK = 3 * THINNAROM_SECTOR_BYTES };

static void judge_with_bytes(lent *l, request r) {
    uint8_t bytes[BULK];
    random_bytes(bytes, r.length);
    lend_bytes(l, bytes, r.length);
    judge(l, &r);
}

/* A state told too long has no more bytes than a state; one told too short has no more than told. */
static unsigned long state_lengths(lent *l, const disk *d, const request *r) {
    const size_t right = THINNAROM_STATE_BYTES;
    const size_t lengths[] = {0, 1, 162, 164, 326, 512, SIZE_MAX, SIZE_MAX / 2, right + ((size_t)1 << (sizeof(size_t) * 4))};
    for (size_t i = 0; i < sizeof lengths / sizeof lengths[0]; i++) {
        size_t there = lengths[i] < right ? lengths[i] : right;
        lend(l, d);
        piece_place(&l->state, there, l->at);
        memcpy(l->state.bytes, d->state, there);
        l->state_told = l->state.bytes;
        l->state_length = lengths[i];
        judge_with_bytes(l, *r);
        l->sectors_length++;
        judge_with_bytes(l, *r);
    }
    lend(l, d);
    piece_place(&l->state, 0, l->at);
    l->state_told = NULL;
    l->state_length = 0;
    judge_with_bytes(l, *r);
    return 2 * sizeof lengths / sizeof lengths[0] + 1;
}

/* Sectors of a wrong length are not touched at all, so they may stand where nothing may be touched. */
static unsigned long sector_lengths(lent *l, const disk *d, const request *r) {
    const size_t right = d->sectors_length;
    const size_t lengths[] = {0,        1,            right - 1, right + 1,        right - 512, right + 512, 2 * right,
                              SIZE_MAX, SIZE_MAX / 2, SIZE_MAX - right, right + ((size_t)1 << (sizeof(size_t) * 4))};
    for (size_t i = 0; i < sizeof lengths / sizeof lengths[0]; i++) {
        lend(l, d);
        l->sectors_told = inaccessible();
        l->sectors_length = lengths[i];
        judge_with_bytes(l, *r);
        l->state.bytes[ATTEMPTS] = 6; /* out of shape besides: 2 comes before 3 */
        judge_with_bytes(l, *r);
    }
    lend(l, d);
    l->sectors_told = NULL;
    l->sectors_length = 0;
    judge_with_bytes(l, *r);
    return 2 * sizeof lengths / sizeof lengths[0] + 1;
}

unsigned long check_lengths(side at) {
    static disk d;
    lent l = lent_of(MOST_RANDOM_SECTORS * THINNAROM_SECTOR_BYTES, BULK, at);
    unsigned long steps = 0;
    for (int kind = 0; kind < KINDS; kind++) {
        for (int call = 0; call < CALLS; call++) {
            for (int round = 0; round < 20; round++) {
                request r = random_request((enum call)call, BULK);
                random_disk(&d, (enum kind)kind);
                steps += state_lengths(&l, &d, &r) + sector_lengths(&l, &d, &r);
            }
        }
    }
    return steps;
}

/* Every register number, read and written, on several disks of each kind of transfer. */
unsigned long check_registers(side at) {
    static disk d;
    lent l = lent_of(MOST_RANDOM_SECTORS * THINNAROM_SECTOR_BYTES, BULK, at);
    unsigned long steps = 0;
    for (int round = 0; round < 20 * KINDS; round++) {
        random_disk(&d, (enum kind)(round % KINDS));
        for (int n = 0; n < 256; n++) {
            request asked = {READ_REGISTER, (uint8_t)n, 0, 0, 0};
            lend(&l, &d);
            judge(&l, &asked);
            asked.call = WRITE_REGISTER;
            asked.v = (uint8_t)chance();
            lend(&l, &d);
            judge(&l, &asked);
            steps += 2;
        }
    }
    return steps;
}
