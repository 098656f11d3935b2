/* A guest's end of the cable: what a driver does with registers and data words, on the disk that its host lets it use. */
#ifndef GUEST_H
#define GUEST_H

#include <stdbool.h>
#include <stdint.h>

#include "thinnarom.h"

enum {
    STATUS_IDLE = THINNAROM_STATUS_DRDY | THINNAROM_STATUS_DSC,
    STATUS_WORD_DUE = STATUS_IDLE | THINNAROM_STATUS_DRQ,
    STATUS_FAILED = STATUS_IDLE | THINNAROM_STATUS_ERR
};

typedef struct guest {
    thinnarom_disk *disk;
    uint64_t heard;      /* a digest of all that the disk has told this guest, so that two guests can be compared */
    unsigned long words; /* data words that it was given */
    unsigned long identify_words, zero_words; /* those of them that are IDENTIFY DEVICE's, and zeros of READ BUFFER; a story counts them */
} guest;

guest guest_on(thinnarom_disk *disk);

uint8_t guest_read(guest *g, uint8_t n);
void guest_write(guest *g, uint8_t n, uint8_t v);

/* Lays an LBA and a number of sectors into registers 2 to 6, and then gives the command. */
void guest_command_at(guest *g, uint8_t code, uint32_t lba, uint8_t count);

/* One data word each, for a guest that does not know whether a transfer is open. */
thinnarom_reply guest_read_word(guest *g);
thinnarom_reply guest_write_word(guest *g, uint16_t w);

/* All words of a piece of memory in one call; how many of them passed. */
size_t guest_read_words(guest *g, uint8_t *out, size_t length);
size_t guest_write_words(guest *g, const uint8_t *bytes, size_t length);

/* Sets and clears the software reset; Status while it was held. */
uint8_t guest_software_reset(guest *g);

/* The block that the security commands take: control is word 0, the password is filled up with zeros. */
void password_block(uint8_t block[THINNAROM_SECTOR_BYTES], uint16_t control, const char *password);

/* Word `place` of a block, low byte first. */
uint16_t word_of(const uint8_t *block, size_t place);

/* Ends the program with a plain line unless `met`. */
void expect(bool met, const char *expectation);

#endif
