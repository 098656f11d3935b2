#include "disks.h"

static uint64_t place_of_chance;

void chance_from(uint64_t seed) {
    place_of_chance = seed;
}

/* splitmix64 */
uint64_t chance(void) {
    place_of_chance += UINT64_C(0x9E3779B97F4A7C15);
    uint64_t mixed = place_of_chance;
    mixed = (mixed ^ (mixed >> 30)) * UINT64_C(0xBF58476D1CE4E5B9);
    mixed = (mixed ^ (mixed >> 27)) * UINT64_C(0x94D049BB133111EB);
    return mixed ^ (mixed >> 31);
}

uint32_t below(uint32_t limit) {
    return (uint32_t)((chance() >> 32) * limit >> 32);
}

void random_bytes(uint8_t *bytes, size_t length) {
    uint64_t eight;
    for (; length >= sizeof eight; length -= sizeof eight, bytes += sizeof eight) {
        eight = chance();
        memcpy(bytes, &eight, sizeof eight);
    }
    eight = chance();
    memcpy(bytes, &eight, length);
}

static uint8_t mark(void) {
    return (uint8_t)(chance() & 1);
}

/* The factory's translation, or any other that 91h gives. */
static void put_translation(uint8_t *s) {
    uint32_t capacity = capacity_of(s), heads = s[HEADS], sectors = s[SECTORS];
    while (mark()) {
        uint32_t some_heads = 1 + below(16), some_sectors = 1 + below(255);
        if (cylinders_by_91h(capacity, some_heads, some_sectors) > 0) {
            heads = some_heads;
            sectors = some_sectors;
        }
    }
    put_counts(s + NOW_CYLINDERS, cylinders_by_91h(capacity, heads, sectors), (uint8_t)heads, (uint8_t)sectors);
}

/* The address of some sector, in LBA or in the current translation; bits of Device/Head that say nothing are left to chance. */
static void put_address(uint8_t *s) {
    uint8_t *at = s + RUN_ADDRESS, idle_bits = (uint8_t)(chance() & 0xB0);
    uint32_t heads = s[NOW_HEADS], sectors = s[NOW_SECTORS], cylinder = below(two_bytes(s + NOW_CYLINDERS));
    if (mark()) {
        uint32_t lba = below(capacity_of(s));
        at[0] = (uint8_t)lba;
        put_two_bytes(at + 1, lba >> 8);
        at[3] = (uint8_t)(idle_bits | THINNAROM_DEVICE_HEAD_LBA | lba >> 24);
    } else {
        at[0] = (uint8_t)(1 + below(sectors));
        put_two_bytes(at + 1, cylinder);
        at[3] = (uint8_t)(idle_bits | below(heads));
    }
    s[RUN_AFTER] = (uint8_t)(mark() ? below(4) : below(256));
}

static void put_lock(uint8_t *s, enum kind kind) {
    bool may_be_frozen = kind < SETS;
    s[LOCK] = (uint8_t)below(3);
    if ((s[LOCK] == LOCKED && !may_be_locked(kind)) || (s[LOCK] == FROZEN && !may_be_frozen)) {
        s[LOCK] = OPEN;
    }
    s[ENABLED] = s[LOCK] == LOCKED ? 1 : mark();
    s[MAXIMUM] = mark();
    bool judged = kind == UNLOCKS || kind == ERASES;
    s[ATTEMPTS] = (uint8_t)(judged ? 1 + below(5) : below(6));
    s[PREPARED] = kind == ERASES ? 1 : mark();
    random_bytes(s + USER, 2 * THINNAROM_PASSWORD_BYTES);
}

static void put_transfer(uint8_t *s, enum kind kind) {
    memset(s + KIND, 0, PLACE + 1 - KIND);
    s[KIND] = (uint8_t)kind;
    s[HELD] = 0;
    if (kind == IDLE) {
        s[HELD] = mark();
        s[DEVICE_HEAD] &= s[HELD] ? 0xEF : 0xFF;
        return;
    }
    s[DEVICE_HEAD] &= 0xEF;
    s[PLACE] = (uint8_t)(mark() ? below(256) : 255 - below(4));
    if (kind == READS || kind == WRITES) {
        put_address(s);
    }
}

/* A block that often holds the password that it picks; its first words have come and stand in the buffer. */
static void put_block(disk *d) {
    random_bytes(d->block, sizeof d->block);
    if (below(4) > 0) {
        const uint8_t *picked = d->state + (d->block[0] & 1 ? MASTER : USER);
        memcpy(d->block + 2, picked, THINNAROM_PASSWORD_BYTES);
    }
    if (writes_words(d->state)) {
        memcpy(d->buffer, d->block, (size_t)2 * d->state[PLACE]);
    }
}

void random_disk_of(disk *d, enum kind kind, uint16_t cylinders, uint8_t heads, uint8_t sectors) {
    uint8_t *s = d->state;
    random_bytes(s, MASKED);
    s[MASKED] = mark();
    s[RAISED] = mark();
    s[FAILED] = mark();
    put_counts(s + CYLINDERS, cylinders, heads, sectors);
    put_translation(s);
    put_transfer(s, kind);
    put_lock(s, kind);
    for (int i = IDENTITY; i < USER; i++) {
        s[i] = (uint8_t)(0x20 + below(0x5F));
    }
    d->sectors_length = (size_t)THINNAROM_SECTOR_BYTES * capacity_of(s);
    random_bytes(d->buffer, sizeof d->buffer);
    random_bytes(d->sectors, d->sectors_length);
    put_block(d);
}

void random_disk(disk *d, enum kind kind) {
    static const uint8_t GEOMETRIES[][3] = {{1, 1, 1}, {1, 1, 2}, {2, 1, 2}, {1, 2, 3}, {2, 2, 3}};
    const uint8_t *geometry = GEOMETRIES[below(sizeof GEOMETRIES / sizeof GEOMETRIES[0])];
    random_disk_of(d, kind, geometry[0], geometry[1], geometry[2]);
}
