/*
 * Out-of-shape states of every clause. From disks in shape, every byte of the state is given every value; what each clause
 * says is then broken alone somewhere, for every kind of transfer that it speaks of. Geometries, whose limits single bytes
 * break only along with the translation, are made on purpose.
 */
#include <stdio.h>

#include "checks.h"

enum { BASES_OF_A_KIND = 3, BULK = 64 };

static unsigned long alone[CLAUSES], alone_by_kind[CLAUSES][KINDS];

static void count_clauses(const uint8_t *state) {
    uint32_t broken = broken_clauses(state);
    for (int clause = 0; clause < CLAUSES; clause++) {
        if (broken == (uint32_t)1 << clause) {
            alone[clause]++;
            if (state[KIND] < KINDS) {
                alone_by_kind[clause][state[KIND]]++;
            }
        }
    }
}

static unsigned long one_call(lent *l, const disk *d, enum call call) {
    request r = random_request(call, 0);
    if (call == READ_WORDS || call == WRITE_WORDS) {
        r.length = l->bytes.length;
    }
    lend(l, d);
    judge(l, &r);
    return 1;
}

static unsigned long all_calls(lent *l, const disk *d) {
    for (int call = 0; call < CALLS; call++) {
        one_call(l, d, (enum call)call);
    }
    return CALLS;
}

/* Bases that let every clause be broken by one byte: security enabled, in turn locked and open, idle ones held or with DEV set. */
static void make_base(disk *d, enum kind kind, int which) {
    random_disk_of(d, kind, 1, 2, 1);
    uint8_t *s = d->state;
    s[ENABLED] = 1;
    s[LOCK] = which == 0 && may_be_locked(kind) ? LOCKED : OPEN;
    if (kind == IDLE) {
        s[HELD] = which == 1;
        s[DEVICE_HEAD] = which == 2 ? THINNAROM_DEVICE_HEAD_DEV : 0x00;
    }
    if (broken_clauses(s) != 0) {
        fail("a base is out of shape");
    }
}

unsigned long check_every_byte(side at) {
    static disk base, d;
    lent l = lent_of(2 * THINNAROM_SECTOR_BYTES, BULK, at);
    uint8_t bytes[BULK] = {0};
    unsigned long steps = 0;
    lend_bytes(&l, bytes, sizeof bytes);
    for (int round = 0; round < KINDS * BASES_OF_A_KIND; round++) {
        make_base(&base, (enum kind)(round % KINDS), round / KINDS);
        d = base;
        for (int i = 0; i < THINNAROM_STATE_BYTES; i++) {
            for (int value = 0; value < 256; value++) {
                d.state[i] = (uint8_t)value;
                count_clauses(d.state);
                /* most registers and the passwords may be anything, the identity has one rule: there the calls take turns */
                bool many_rules = i >= DEVICE_HEAD && i < IDENTITY;
                steps += many_rules ? all_calls(&l, &d) : one_call(&l, &d, (enum call)((i + value + round) % CALLS));
            }
            d.state[i] = base.state[i];
        }
    }
    return steps;
}

/* A geometry with a translation that fits it, and ones beside it. The sectors lent are of another length: in shape is 3. */
static unsigned long one_geometry(lent *l, disk *d, uint16_t cylinders, uint8_t heads, uint8_t sectors) {
    static const uint8_t OTHERS[][2] = {{1, 1}, {16, 63}, {16, 255}, {1, 255}, {16, 1}, {17, 1}, {0, 1}, {1, 0}};
    unsigned long steps = 0;
    put_counts(d->state + CYLINDERS, cylinders, heads, sectors);
    uint32_t capacity = capacity_of(d->state);
    for (size_t i = 0; i <= sizeof OTHERS / sizeof OTHERS[0]; i++) {
        uint8_t now_heads = i == 0 ? heads : OTHERS[i - 1][0], now_sectors = i == 0 ? sectors : OTHERS[i - 1][1];
        uint32_t due = cylinders_by_91h(capacity, now_heads, now_sectors);
        for (int off = -1; off <= 1; off++) {
            put_counts(d->state + NOW_CYLINDERS, due + (uint32_t)off, now_heads, now_sectors);
            count_clauses(d->state);
            steps += all_calls(l, d);
        }
    }
    return steps;
}

unsigned long check_geometries(side at) {
    static const uint16_t CYLINDER_COUNTS[] = {0, 1, 1024, 1025, 65535};
    static const uint8_t HEAD_COUNTS[] = {0, 1, 16, 17, 255}, SECTOR_COUNTS[] = {0, 1, 63, 64, 255};
    static disk d;
    lent l = lent_of(2 * THINNAROM_SECTOR_BYTES, BULK, at);
    uint8_t bytes[BULK] = {0};
    unsigned long steps = 0;
    lend_bytes(&l, bytes, sizeof bytes);
    for (int kind = IDLE; kind < KINDS; kind++) {
        random_disk_of(&d, (enum kind)kind, 1, 2, 1);
        memset(d.state + RUN_ADDRESS, 0, 4);
        d.state[RUN_ADDRESS] = kind == READS || kind == WRITES; /* cylinder 0, head 0, sector 1 is on every disk */
        for (int i = 0; i < 125; i++) {
            steps += one_geometry(&l, &d, CYLINDER_COUNTS[i / 25], HEAD_COUNTS[i / 5 % 5], SECTOR_COUNTS[i % 5]);
        }
    }
    return steps;
}

/* For which kinds of transfer each clause can be broken alone. */
static bool speaks_of(enum clause clause, enum kind kind) {
    bool moves = kind == READS || kind == WRITES;
    switch (clause) {
    case STRAY_BYTES:
        return !moves;
    case ADDRESS_FAULTS:
        return moves;
    case TRANSFER_WITH_DEV:
    case TRANSFER_WHILE_HELD:
        return kind != IDLE;
    case NO_KIND: /* the byte that tells the kind is the broken one */
        return false;
    case DEV_WHILE_HELD:
        return kind == IDLE;
    case LOCKED_WITHOUT_SECURITY:
        return may_be_locked(kind);
    case TRANSFER_WHILE_LOCKED:
        return moves || kind == SETS || kind == DISABLES;
    case PASSWORD_WHILE_FROZEN:
        return kind >= SETS;
    case NO_ATTEMPTS:
        return kind == UNLOCKS || kind == ERASES;
    case NO_PREPARATION:
        return kind == ERASES;
    default:
        return true;
    }
}

void clauses_reached(void) {
    for (int clause = 0; clause < CLAUSES; clause++) {
        printf("boundary:   broken alone %6lu times: %s\n", alone[clause], CLAUSE_NAMES[clause]);
        for (int kind = 0; kind < KINDS; kind++) {
            if (speaks_of((enum clause)clause, (enum kind)kind) && alone_by_kind[clause][kind] == 0) {
                fail("'%s' was never broken alone with transfer %d", CLAUSE_NAMES[clause], kind);
            }
        }
        if (alone[clause] == 0) {
            fail("'%s' was never broken alone", CLAUSE_NAMES[clause]);
        }
    }
}
