/*
 * Thinnarom: the device end of one ATA-3 disk, over memory that its host lends. C99 or C++.
 *
 * Three pieces of memory are a disk, and the host lends them to each call:
 *
 *   state     THINNAROM_STATE_BYTES bytes: registers, transfer, geometry, identity, lock, both passwords. Opaque, but plain
 *             bytes: a host may copy them, keep them in a file and bring them back. Whoever reads them reads the passwords.
 *   buffer    THINNAROM_BUFFER_BYTES bytes: the sector buffer.
 *   sectors   512 x cylinders x heads x sectors per track bytes, kept where the host likes, also mapped from a file.
 *
 * The library allocates nothing, keeps nothing between calls and touches nothing but what the call was lent. So disks may
 * stand side by side, in as many threads as the host has; one disk serves one call at a time. The pieces must not overlap,
 * and a null pointer may be lent only with length 0. Any bytes may be lent: those that are no disk's state are refused.
 *
 * Each call gives an answer and a value. With answer THINNAROM_DONE the value is what was read, or 0 for a write or a reset. With
 * any other answer the value is 0 and nothing has changed, but for THINNAROM_SETUP_REFUSED. Tests are made in the order state,
 * sectors, then register or transfer; the first that fails gives the answer.
 *
 * First come the calls as the library has them; behind them the same calls over one struct, which most hosts will prefer.
 */
#ifndef THINNAROM_H
#define THINNAROM_H

#include <stddef.h>
#include <stdint.h>
#include <string.h>

#ifdef __cplusplus
extern "C" {
#endif

/* ---- Numbers ------------------------------------------------------------------------------------------------------ */

#define THINNAROM_STATE_BYTES 163
#define THINNAROM_BUFFER_BYTES 512
#define THINNAROM_SECTOR_BYTES 512
#define THINNAROM_BLOCK_WORDS 256 /* the words of a sector, of the buffer and of a password block */

#define THINNAROM_SERIAL_BYTES 20
#define THINNAROM_FIRMWARE_BYTES 8
#define THINNAROM_MODEL_BYTES 40
#define THINNAROM_IDENTITY_BYTES 68 /* serial, firmware and model one behind the other */
#define THINNAROM_PASSWORD_BYTES 32

#define THINNAROM_MAX_CYLINDERS 1024
#define THINNAROM_MAX_HEADS 16
#define THINNAROM_MAX_SECTORS_PER_TRACK 63

enum thinnarom_answer {
    THINNAROM_DONE = 0,
    THINNAROM_NO_REGISTER = 1,  /* register 0 or above 8 */
    THINNAROM_OUT_OF_SHAPE = 2, /* the state is no disk's, or is not THINNAROM_STATE_BYTES long */
    THINNAROM_WRONG_LENGTH = 3, /* the sectors are not as long as this disk's geometry has them */
    THINNAROM_NO_TRANSFER = 4,  /* a data word, and no transfer that way is open */
    THINNAROM_SETUP_REFUSED = 6 /* setup outside its limits */
};

/* Some registers mean one thing read and another written. */
enum thinnarom_register {
    THINNAROM_ERROR = 1,    /* read */
    THINNAROM_FEATURES = 1, /* written */
    THINNAROM_SECTOR_COUNT = 2,
    THINNAROM_SECTOR_NUMBER = 3, /* LBA bits 0 to 7 */
    THINNAROM_CYLINDER_LOW = 4,  /* LBA bits 8 to 15 */
    THINNAROM_CYLINDER_HIGH = 5, /* LBA bits 16 to 23 */
    THINNAROM_DEVICE_HEAD = 6,   /* LBA bits 24 to 27 in its low nibble */
    THINNAROM_STATUS = 7,        /* read; clears the interrupt */
    THINNAROM_COMMAND = 7,       /* written */
    THINNAROM_ALTERNATE_STATUS = 8, /* read; leaves the interrupt */
    THINNAROM_DEVICE_CONTROL = 8    /* written */
};

/* Status. Idle is DRDY and DSC; with a data word due DRQ besides, after an error ERR besides; BSY alone while reset is held. */
enum thinnarom_status_bit {
    THINNAROM_STATUS_ERR = 0x01,
    THINNAROM_STATUS_DRQ = 0x08,
    THINNAROM_STATUS_DSC = 0x10,
    THINNAROM_STATUS_DRDY = 0x40,
    THINNAROM_STATUS_BSY = 0x80
};

enum thinnarom_error_bit {
    THINNAROM_ERROR_ABRT = 0x04, /* the command was aborted */
    THINNAROM_ERROR_IDNF = 0x10  /* the address names no sector */
};

enum thinnarom_device_head_bit {
    THINNAROM_DEVICE_HEAD_DEV = 0x10, /* selects device 1, which is not there */
    THINNAROM_DEVICE_HEAD_LBA = 0x40  /* registers 3 to 6 hold an LBA, not cylinder, head and sector */
};

enum thinnarom_device_control_bit {
    THINNAROM_DEVICE_CONTROL_NIEN = 0x02, /* masks the interrupt line */
    THINNAROM_DEVICE_CONTROL_SRST = 0x04  /* holds the software reset */
};

enum thinnarom_command {
    THINNAROM_RECALIBRATE = 0x10,
    THINNAROM_READ_SECTORS = 0x20,
    THINNAROM_WRITE_SECTORS = 0x30,
    THINNAROM_READ_VERIFY_SECTORS = 0x40,
    THINNAROM_SEEK = 0x70,
    THINNAROM_EXECUTE_DEVICE_DIAGNOSTIC = 0x90,
    THINNAROM_INITIALIZE_DEVICE_PARAMETERS = 0x91,
    THINNAROM_READ_BUFFER = 0xE4,
    THINNAROM_WRITE_BUFFER = 0xE8,
    THINNAROM_IDENTIFY_DEVICE = 0xEC,
    THINNAROM_SECURITY_SET_PASSWORD = 0xF1,
    THINNAROM_SECURITY_UNLOCK = 0xF2,
    THINNAROM_SECURITY_ERASE_PREPARE = 0xF3,
    THINNAROM_SECURITY_ERASE_UNIT = 0xF4,
    THINNAROM_SECURITY_FREEZE_LOCK = 0xF5,
    THINNAROM_SECURITY_DISABLE_PASSWORD = 0xF6
};

/* Word 0 of a password block; words 1 to 16 are the password, low byte first. */
enum thinnarom_password_bit {
    THINNAROM_PASSWORD_MASTER = 0x0001, /* the master password, else the user's */
    THINNAROM_PASSWORD_MAXIMUM = 0x0100 /* with SECURITY SET PASSWORD: level Maximum, else High */
};

/* The word of IDENTIFY DEVICE that tells of the lock, and its bits. */
#define THINNAROM_SECURITY_WORD 128
enum thinnarom_security_bit {
    THINNAROM_SECURITY_SUPPORTED = 0x0001,
    THINNAROM_SECURITY_ENABLED = 0x0002,
    THINNAROM_SECURITY_LOCKED = 0x0004,
    THINNAROM_SECURITY_FROZEN = 0x0008,
    THINNAROM_SECURITY_EXPIRED = 0x0010, /* no attempts left */
    THINNAROM_SECURITY_MAXIMUM = 0x0100
};

/* ---- The calls ---------------------------------------------------------------------------------------------------- */

typedef struct thinnarom_reply {
    uint32_t answer; /* a thinnarom_answer */
    uint32_t value;
} thinnarom_reply;

/*
 * Makes a disk, just powered on: security off, user password all zero. identity is serial, firmware and model, each byte 20h to
 * 7Eh; master is the master password. What state and buffer held before does not count; the sectors are not taken and
 * keep what they hold.
 * Refuses with OUT_OF_SHAPE, and alters nothing, where state_length is not THINNAROM_STATE_BYTES. Refuses with SETUP_REFUSED,
 * and makes state and buffer all zero (which is no disk's state), where cylinders are not 1 to 1024, heads not 1 to 16,
 * sectors per track not 1 to 63, an identity byte is outside its limits, or identity or master have another length.
 */
thinnarom_reply thinnarom_setup(uint8_t *state, size_t state_length, uint8_t *buffer, uint16_t cylinders, uint8_t heads,
                                uint8_t sectors_per_track, const uint8_t *identity, size_t identity_length,
                                const uint8_t *master, size_t master_length);

/* Reads register n. Only a read of Status leaves something changed: the interrupt is cleared. Refuses with NO_REGISTER. */
thinnarom_reply thinnarom_read_register(uint8_t *state, size_t state_length, uint8_t *buffer, uint8_t *sectors,
                                        size_t sectors_length, uint8_t n);

/* Writes v to register n; a Command runs at once, up to its first data word. A write that the disk ignores, such as to
 * Sector Count during a transfer, is DONE too. Refuses with NO_REGISTER. */
thinnarom_reply thinnarom_write_register(uint8_t *state, size_t state_length, uint8_t *buffer, uint8_t *sectors,
                                         size_t sectors_length, uint8_t n, uint8_t v);

/* Reads the next data word. Refuses with NO_TRANSFER unless a command that is read from is open. */
thinnarom_reply thinnarom_read_word(uint8_t *state, size_t state_length, uint8_t *buffer, uint8_t *sectors,
                                    size_t sectors_length);

/* Writes the next data word; the 256th of a sector stores it, that of a password block has it judged. Refuses with
 * NO_TRANSFER unless a command that is written to is open. */
thinnarom_reply thinnarom_write_word(uint8_t *state, size_t state_length, uint8_t *buffer, uint8_t *sectors,
                                     size_t sectors_length, uint16_t w);

/*
 * Does what out_length / 2 calls of thinnarom_read_word do one after the other, over block ends too, up to the first that is
 * refused, and lays each word into out, low byte first. The value is the number of words passed; out keeps the bytes behind
 * them. Refuses with NO_TRANSFER where already the first word would be; with room for no word it is DONE with value 0.
 */
thinnarom_reply thinnarom_read_words(uint8_t *state, size_t state_length, uint8_t *buffer, uint8_t *sectors,
                                     size_t sectors_length, uint8_t *out, size_t out_length);

/* The same for thinnarom_write_word: the words are bytes_length / 2 pairs, low byte first. */
thinnarom_reply thinnarom_write_words(uint8_t *state, size_t state_length, uint8_t *buffer, uint8_t *sectors,
                                      size_t sectors_length, const uint8_t *bytes, size_t bytes_length);

/*
 * Hardware reset and power-on leave the same: start values, no transfer, a zeroed buffer, five attempts, locked exactly if
 * security is enabled. Passwords and sectors stay. A host that gives the disk to another guest powers it on first.
 */
thinnarom_reply thinnarom_hardware_reset(uint8_t *state, size_t state_length, uint8_t *buffer, uint8_t *sectors,
                                         size_t sectors_length);
thinnarom_reply thinnarom_power_on(uint8_t *state, size_t state_length, uint8_t *buffer, uint8_t *sectors,
                                   size_t sectors_length);

/* The interrupt line: 1 when the interrupt is raised and not masked, else 0. Changes nothing. */
thinnarom_reply thinnarom_line(uint8_t *state, size_t state_length, uint8_t *buffer, uint8_t *sectors,
                               size_t sectors_length);

/* ---- The same over one struct ------------------------------------------------------------------------------------- */

/* What a host lends for one disk; the sectors stand where the host has them. */
typedef struct thinnarom_disk {
    uint8_t state[THINNAROM_STATE_BYTES];
    uint8_t buffer[THINNAROM_BUFFER_BYTES];
    uint8_t *sectors;
    size_t sectors_length;
} thinnarom_disk;

/* How many bytes of sectors a disk of this geometry takes. */
static inline size_t thinnarom_sectors_length(uint16_t cylinders, uint8_t heads, uint8_t sectors_per_track) {
    return (size_t)THINNAROM_SECTOR_BYTES * cylinders * heads * sectors_per_track;
}

/* Lays text into a field and fills it up with spaces; text that is longer is cut. */
static inline void thinnarom_pad(uint8_t *field, size_t length, const char *text) {
    size_t taken = strlen(text);
    if (taken > length) {
        taken = length;
    }
    memset(field, ' ', length);
    memcpy(field, text, taken);
}

/* Makes what setup takes for identity; bytes outside 20h to 7Eh stay, for setup to refuse. */
static inline void thinnarom_identity(uint8_t identity[THINNAROM_IDENTITY_BYTES], const char *serial, const char *firmware,
                                      const char *model) {
    uint8_t *field = identity;
    thinnarom_pad(field, THINNAROM_SERIAL_BYTES, serial);
    field += THINNAROM_SERIAL_BYTES;
    thinnarom_pad(field, THINNAROM_FIRMWARE_BYTES, firmware);
    field += THINNAROM_FIRMWARE_BYTES;
    thinnarom_pad(field, THINNAROM_MODEL_BYTES, model);
}

/* Says where the disk's sectors stand, before its first action or when they have moved. */
static inline void thinnarom_disk_lend(thinnarom_disk *disk, uint8_t *sectors, size_t sectors_length) {
    disk->sectors = sectors;
    disk->sectors_length = sectors_length;
}

static inline thinnarom_reply thinnarom_disk_setup(thinnarom_disk *disk, uint16_t cylinders, uint8_t heads,
                                                   uint8_t sectors_per_track,
                                                   const uint8_t identity[THINNAROM_IDENTITY_BYTES],
                                                   const uint8_t master[THINNAROM_PASSWORD_BYTES]) {
    return thinnarom_setup(disk->state, sizeof disk->state, disk->buffer, cylinders, heads, sectors_per_track, identity,
                           THINNAROM_IDENTITY_BYTES, master, THINNAROM_PASSWORD_BYTES);
}

static inline thinnarom_reply thinnarom_disk_read_register(thinnarom_disk *disk, uint8_t n) {
    return thinnarom_read_register(disk->state, sizeof disk->state, disk->buffer, disk->sectors, disk->sectors_length, n);
}

static inline thinnarom_reply thinnarom_disk_write_register(thinnarom_disk *disk, uint8_t n, uint8_t v) {
    return thinnarom_write_register(disk->state, sizeof disk->state, disk->buffer, disk->sectors, disk->sectors_length, n, v);
}

static inline thinnarom_reply thinnarom_disk_read_word(thinnarom_disk *disk) {
    return thinnarom_read_word(disk->state, sizeof disk->state, disk->buffer, disk->sectors, disk->sectors_length);
}

static inline thinnarom_reply thinnarom_disk_write_word(thinnarom_disk *disk, uint16_t w) {
    return thinnarom_write_word(disk->state, sizeof disk->state, disk->buffer, disk->sectors, disk->sectors_length, w);
}

static inline thinnarom_reply thinnarom_disk_read_words(thinnarom_disk *disk, uint8_t *out, size_t out_length) {
    return thinnarom_read_words(disk->state, sizeof disk->state, disk->buffer, disk->sectors, disk->sectors_length, out,
                                out_length);
}

static inline thinnarom_reply thinnarom_disk_write_words(thinnarom_disk *disk, const uint8_t *bytes, size_t bytes_length) {
    return thinnarom_write_words(disk->state, sizeof disk->state, disk->buffer, disk->sectors, disk->sectors_length, bytes,
                                 bytes_length);
}

static inline thinnarom_reply thinnarom_disk_hardware_reset(thinnarom_disk *disk) {
    return thinnarom_hardware_reset(disk->state, sizeof disk->state, disk->buffer, disk->sectors, disk->sectors_length);
}

static inline thinnarom_reply thinnarom_disk_power_on(thinnarom_disk *disk) {
    return thinnarom_power_on(disk->state, sizeof disk->state, disk->buffer, disk->sectors, disk->sectors_length);
}

static inline thinnarom_reply thinnarom_disk_line(thinnarom_disk *disk) {
    return thinnarom_line(disk->state, sizeof disk->state, disk->buffer, disk->sectors, disk->sectors_length);
}

#ifdef __cplusplus
}
#endif

#endif
