#include "shape.h"

#include "thinnarom.h"

const uint8_t START[] = {0x01, 0x00, 0x01, 0x01, 0x00, 0x00, 0x00};

const char *const CLAUSE_NAMES[CLAUSES] = {"a mark above 1",
                                           "no such transfer",
                                           "no such lock state",
                                           "a transfer's byte that has to be 0, more than one block left included",
                                           "geometry outside the limits",
                                           "identity outside the limits",
                                           "a translation that 91h does not allow",
                                           "attempts above 5",
                                           "locked without security enabled",
                                           "a current sector address that faults",
                                           "a transfer with DEV set",
                                           "a transfer with reset held",
                                           "DEV set while reset is held",
                                           "a sector, SET or DISABLE PASSWORD transfer while locked",
                                           "a password transfer while frozen",
                                           "UNLOCK or ERASE UNIT with no attempts left",
                                           "ERASE UNIT without preparation"};

uint16_t two_bytes(const uint8_t *low_first) {
    return (uint16_t)(low_first[0] | low_first[1] << 8);
}

void put_two_bytes(uint8_t *low_first, uint32_t value) {
    low_first[0] = (uint8_t)value;
    low_first[1] = (uint8_t)(value >> 8);
}

void put_counts(uint8_t *at, uint32_t cylinders, uint8_t heads, uint8_t sectors) {
    put_two_bytes(at, cylinders);
    at[2] = heads;
    at[3] = sectors;
}

bool is_geometry(uint16_t cylinders, uint8_t heads, uint8_t sectors) {
    return cylinders >= 1 && cylinders <= 1024 && heads >= 1 && heads <= 16 && sectors >= 1 && sectors <= 63;
}

bool is_printable(const uint8_t *bytes, size_t length) {
    for (size_t i = 0; i < length; i++) {
        if (bytes[i] < 0x20 || bytes[i] > 0x7E) {
            return false;
        }
    }
    return true;
}

uint32_t capacity_of(const uint8_t *state) {
    return (uint32_t)two_bytes(state + CYLINDERS) * state[HEADS] * state[SECTORS];
}

uint32_t cylinders_by_91h(uint32_t capacity, uint32_t heads, uint32_t sectors) {
    if (heads == 0 || heads > 16 || sectors == 0) {
        return 0;
    }
    uint32_t cylinders = capacity / (heads * sectors);
    return cylinders < 65535 ? cylinders : 65535;
}

bool reads_words(const uint8_t *s) {
    return s[KIND] == READS || s[KIND] == READS_BUFFER;
}

bool writes_words(const uint8_t *s) {
    return s[KIND] == WRITES || (s[KIND] >= WRITES_BUFFER && s[KIND] < KINDS);
}

bool may_be_locked(enum kind kind) {
    return kind == IDLE || kind == READS_BUFFER || kind == WRITES_BUFFER || kind == UNLOCKS || kind == ERASES;
}

static bool moves_sectors(const uint8_t *s) {
    return s[KIND] == READS || s[KIND] == WRITES;
}

static bool takes_password(const uint8_t *s) {
    return s[KIND] >= SETS && s[KIND] < KINDS;
}

static bool transfers(const uint8_t *s) {
    return s[KIND] != IDLE && s[KIND] < KINDS;
}

static bool no_mark(const uint8_t *s) {
    return s[HELD] > 1 || s[MASKED] > 1 || s[RAISED] > 1 || s[FAILED] > 1 || s[ENABLED] > 1 || s[MAXIMUM] > 1 || s[PREPARED] > 1;
}

static bool no_kind(const uint8_t *s) {
    return s[KIND] >= KINDS;
}

static bool no_lock_state(const uint8_t *s) {
    return s[LOCK] > FROZEN;
}

static bool stray_bytes(const uint8_t *s) {
    bool run = s[RUN_ADDRESS] || s[RUN_ADDRESS + 1] || s[RUN_ADDRESS + 2] || s[RUN_ADDRESS + 3] || s[RUN_AFTER];
    return s[KIND] < KINDS && ((run && !moves_sectors(s)) || (s[PLACE] && s[KIND] == IDLE));
}

static bool geometry_outside(const uint8_t *s) {
    return !is_geometry(two_bytes(s + CYLINDERS), s[HEADS], s[SECTORS]);
}

static bool identity_outside(const uint8_t *s) {
    return !is_printable(s + IDENTITY, USER - IDENTITY);
}

static bool translation_not_allowed(const uint8_t *s) {
    uint32_t cylinders = cylinders_by_91h(capacity_of(s), s[NOW_HEADS], s[NOW_SECTORS]);
    return cylinders == 0 || two_bytes(s + NOW_CYLINDERS) != cylinders;
}

static bool too_many_attempts(const uint8_t *s) {
    return s[ATTEMPTS] > 5;
}

static bool locked_without_security(const uint8_t *s) {
    return s[LOCK] == LOCKED && s[ENABLED] == 0;
}

static bool address_faults(const uint8_t *s) {
    const uint8_t *at = s + RUN_ADDRESS;
    uint32_t cylinder = two_bytes(at + 1), nibble = at[3] & 0x0F;
    if (!moves_sectors(s)) {
        return false;
    }
    if (at[3] & THINNAROM_DEVICE_HEAD_LBA) {
        return (at[0] | cylinder << 8 | nibble << 24) >= capacity_of(s);
    }
    return at[0] == 0 || at[0] > s[NOW_SECTORS] || nibble >= s[NOW_HEADS] || cylinder >= two_bytes(s + NOW_CYLINDERS);
}

static bool transfer_with_dev(const uint8_t *s) {
    return transfers(s) && (s[DEVICE_HEAD] & THINNAROM_DEVICE_HEAD_DEV);
}

static bool transfer_while_held(const uint8_t *s) {
    return transfers(s) && s[HELD] == 1;
}

static bool dev_while_held(const uint8_t *s) {
    return !transfers(s) && s[HELD] == 1 && (s[DEVICE_HEAD] & THINNAROM_DEVICE_HEAD_DEV);
}

static bool transfer_while_locked(const uint8_t *s) {
    return s[LOCK] == LOCKED && (moves_sectors(s) || s[KIND] == SETS || s[KIND] == DISABLES);
}

static bool password_while_frozen(const uint8_t *s) {
    return s[LOCK] == FROZEN && takes_password(s);
}

static bool no_attempts(const uint8_t *s) {
    return s[ATTEMPTS] == 0 && (s[KIND] == UNLOCKS || s[KIND] == ERASES);
}

static bool no_preparation(const uint8_t *s) {
    return s[PREPARED] == 0 && s[KIND] == ERASES;
}

static bool (*const BROKEN[CLAUSES])(const uint8_t *) = {no_mark,
                                                         no_kind,
                                                         no_lock_state,
                                                         stray_bytes,
                                                         geometry_outside,
                                                         identity_outside,
                                                         translation_not_allowed,
                                                         too_many_attempts,
                                                         locked_without_security,
                                                         address_faults,
                                                         transfer_with_dev,
                                                         transfer_while_held,
                                                         dev_while_held,
                                                         transfer_while_locked,
                                                         password_while_frozen,
                                                         no_attempts,
                                                         no_preparation};

uint32_t broken_clauses(const uint8_t *state) {
    uint32_t broken = 0;
    for (int clause = 0; clause < CLAUSES; clause++) {
        broken |= (uint32_t)BROKEN[clause](state) << clause;
    }
    return broken;
}
