/* The bytes of a state, and which of them are a disk's: document 01's clauses of answer 2 and the form that the bytes have,
 * said once more and independently of the library, so that every answer 2 can be told beforehand. */
#ifndef SHAPE_H
#define SHAPE_H

#include <stdbool.h>
#include <stddef.h>
#include <stdint.h>

enum {
    ERROR = 0,
    FEATURES = 1,
    COUNT = 2,
    ADDRESS = 3, /* four bytes, registers 3 to 6 */
    DEVICE_HEAD = 6,
    HELD = 7,
    MASKED = 8,
    RAISED = 9,
    FAILED = 10,
    KIND = 11,
    RUN_ADDRESS = 12, /* four bytes, the current sector's registers 3 to 6 */
    RUN_AFTER = 16,
    PLACE = 17,
    CYLINDERS = 18, /* two bytes */
    HEADS = 20,
    SECTORS = 21,
    NOW_CYLINDERS = 22, /* two bytes */
    NOW_HEADS = 24,
    NOW_SECTORS = 25,
    LOCK = 26,
    ENABLED = 27,
    MAXIMUM = 28,
    ATTEMPTS = 29,
    PREPARED = 30,
    IDENTITY = 31,
    USER = 99,
    MASTER = 131
};

/* Byte KIND: the transfer that is open. */
enum kind { IDLE, READS, WRITES, READS_BUFFER, WRITES_BUFFER, SETS, UNLOCKS, ERASES, DISABLES, KINDS };

/* Byte LOCK. */
enum { OPEN, LOCKED, FROZEN };

/*
 * Clauses that no bytes can break: locked and frozen together, a word place above 255, no or more than 256 sectors left. A
 * one-block command with more than one block left breaks STRAY_BYTES.
 */
enum clause {
    NO_MARK,
    NO_KIND,
    NO_LOCK_STATE,
    STRAY_BYTES,
    GEOMETRY,
    IDENTITY_BYTE,
    TRANSLATION,
    TOO_MANY_ATTEMPTS,
    LOCKED_WITHOUT_SECURITY,
    ADDRESS_FAULTS,
    TRANSFER_WITH_DEV,
    TRANSFER_WHILE_HELD,
    DEV_WHILE_HELD,
    TRANSFER_WHILE_LOCKED,
    PASSWORD_WHILE_FROZEN,
    NO_ATTEMPTS,
    NO_PREPARATION,
    CLAUSES
};

extern const char *const CLAUSE_NAMES[CLAUSES];

/* One bit for each clause that the bytes break; 0 for a state in shape. */
uint32_t broken_clauses(const uint8_t *state);

/* Registers 1 to 6 and Features, bytes ERROR to DEVICE_HEAD, as setup and all resets leave them. */
extern const uint8_t START[DEVICE_HEAD + 1];

uint16_t two_bytes(const uint8_t *low_first);
void put_two_bytes(uint8_t *low_first, uint32_t value);

/* The counts at CYLINDERS or at NOW_CYLINDERS. */
void put_counts(uint8_t *at, uint32_t cylinders, uint8_t heads, uint8_t sectors);

/* What setup takes, and a state holds. */
bool is_geometry(uint16_t cylinders, uint8_t heads, uint8_t sectors);
bool is_printable(const uint8_t *bytes, size_t length);

/* Cylinders x heads x sectors per track of the factory geometry. */
uint32_t capacity_of(const uint8_t *state);

/* The cylinders that command 91h gives a disk of this capacity: 0 where it aborts. */
uint32_t cylinders_by_91h(uint32_t capacity, uint32_t heads, uint32_t sectors);

/* Whether words are read from, or written to, the transfer that is open. */
bool reads_words(const uint8_t *state);
bool writes_words(const uint8_t *state);

/* Whether a locked disk may have this transfer open. */
bool may_be_locked(enum kind kind);

#endif
