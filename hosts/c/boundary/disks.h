/* Disks made by chance: a state in shape with a given transfer open, and the memory that goes with it. */
#ifndef DISKS_H
#define DISKS_H

#include "shape.h"
#include "thinnarom.h"

enum { MOST_SECTORS = 288, MOST_RANDOM_SECTORS = 12, MOST_SECTOR_BYTES = MOST_SECTORS * THINNAROM_SECTOR_BYTES };

typedef struct disk {
    uint8_t state[THINNAROM_STATE_BYTES];
    uint8_t buffer[THINNAROM_BUFFER_BYTES];
    uint8_t sectors[MOST_SECTOR_BYTES];
    size_t sectors_length;
    uint8_t block[THINNAROM_SECTOR_BYTES]; /* the whole block whose first words stand in the buffer, where one is written */
} disk;

/* The same numbers for the same seed on every machine. */
uint64_t chance(void);
uint32_t below(uint32_t limit);
void chance_from(uint64_t seed);
void random_bytes(uint8_t *bytes, size_t length);

/* A disk in shape with this transfer open, of at most MOST_RANDOM_SECTORS sectors. */
void random_disk(disk *d, enum kind kind);

/* The same with a given geometry. */
void random_disk_of(disk *d, enum kind kind, uint16_t cylinders, uint8_t heads, uint8_t sectors);

#endif
