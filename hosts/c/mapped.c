/*
 * A host whose sectors are a mapped file. The disk's state, which is plain bytes, stands in a second file beside it.
 *
 *     mapped PATH      makes PATH and PATH.state anew, then uses them in two lives of the disk
 *
 * The disk is the largest there is. Its file has holes where no sector was written, and the library touches only the
 * sectors that a command reaches, so neither memory nor the medium holds more than a few pages of it.
 */
#define _POSIX_C_SOURCE 200809L
#include <errno.h>
#include <fcntl.h>
#include <stdio.h>
#include <stdlib.h>
#include <sys/mman.h>
#include <sys/stat.h>
#include <unistd.h>

#include "guest.h"

enum { CYLINDERS = 1024, HEADS = 16, SECTORS_PER_TRACK = 63, CAPACITY = CYLINDERS * HEADS * SECTORS_PER_TRACK, AT_ONCE = 2 };

static const uint32_t PLACES[] = {0, CAPACITY / 2, CAPACITY - AT_ONCE};
enum { PLACE_COUNT = sizeof PLACES / sizeof PLACES[0] };

static size_t length(void) {
    return thinnarom_sectors_length(CYLINDERS, HEADS, SECTORS_PER_TRACK);
}

/* Ends the program with the system's reason unless `done`. */
static void need(bool done, const char *path) {
    if (!done) {
        fprintf(stderr, "%s: %s\n", path, strerror(errno));
        exit(1);
    }
}

/* Opens a file, made anew and as long as the disk where `fresh`, and maps it. The mapping outlasts the open file. */
static uint8_t *map(const char *path, bool fresh) {
    struct stat found;
    int file = open(path, fresh ? O_RDWR | O_CREAT | O_TRUNC : O_RDWR, 0600);
    need(file >= 0, path);
    need(!fresh || ftruncate(file, (off_t)length()) == 0, path);
    need(fstat(file, &found) == 0, path);
    expect((size_t)found.st_size == length(), "the file is as long as the disk");
    void *sectors = mmap(NULL, length(), PROT_READ | PROT_WRITE, MAP_SHARED, file, 0);
    need(sectors != MAP_FAILED, path);
    need(close(file) == 0, path);
    return sectors;
}

/* The sectors reach the medium before the mapping goes. */
static void unmap(uint8_t *sectors, const char *path) {
    need(msync(sectors, length(), MS_SYNC) == 0, path);
    need(munmap(sectors, length()) == 0, path);
}

/* Passwords stand in the state, so nobody but the host may read it. */
static void keep_state(const thinnarom_disk *disk, const char *path) {
    int file = open(path, O_WRONLY | O_CREAT | O_TRUNC, 0600);
    need(file >= 0, path);
    ssize_t written = write(file, disk->state, sizeof disk->state);
    need(written >= 0, path);
    expect(written == (ssize_t)sizeof disk->state, "the whole state is written");
    need(close(file) == 0, path);
}

static void bring_state(thinnarom_disk *disk, const char *path) {
    uint8_t found[THINNAROM_STATE_BYTES + 1];
    int file = open(path, O_RDONLY);
    need(file >= 0, path);
    expect(read(file, found, sizeof found) == THINNAROM_STATE_BYTES, "the file holds a state and nothing else");
    need(close(file) == 0, path);
    memcpy(disk->state, found, sizeof disk->state);
}

/* Bytes that tell of their place, so that a sector that is read from another one does not pass. */
static void fill(uint8_t *bytes, uint32_t lba) {
    for (uint32_t i = 0; i < AT_ONCE * THINNAROM_SECTOR_BYTES; i++) {
        bytes[i] = (uint8_t)((lba * THINNAROM_SECTOR_BYTES + i) * 2654435761u >> 24);
    }
}

static void write_sectors(thinnarom_disk *disk) {
    uint8_t bytes[AT_ONCE * THINNAROM_SECTOR_BYTES];
    guest g = guest_on(disk);
    for (size_t i = 0; i < PLACE_COUNT; i++) {
        fill(bytes, PLACES[i]);
        guest_command_at(&g, THINNAROM_WRITE_SECTORS, PLACES[i], AT_ONCE);
        expect(guest_write_words(&g, bytes, sizeof bytes) == sizeof bytes / 2, "the words pass");
        expect(guest_read(&g, THINNAROM_STATUS) == STATUS_IDLE, "WRITE SECTORS ends well");
    }
}

static void read_sectors(thinnarom_disk *disk) {
    uint8_t bytes[AT_ONCE * THINNAROM_SECTOR_BYTES], wanted[sizeof bytes];
    guest g = guest_on(disk);
    for (size_t i = 0; i < PLACE_COUNT; i++) {
        fill(wanted, PLACES[i]);
        guest_command_at(&g, THINNAROM_READ_SECTORS, PLACES[i], AT_ONCE);
        expect(guest_read_words(&g, bytes, sizeof bytes) == sizeof bytes / 2, "the words come back");
        expect(guest_read(&g, THINNAROM_STATUS) == STATUS_IDLE, "READ SECTORS ends well");
        expect(memcmp(bytes, wanted, sizeof bytes) == 0, "a sector is read back as it was written");
        expect(memcmp(disk->sectors + (size_t)THINNAROM_SECTOR_BYTES * PLACES[i], wanted, sizeof bytes) == 0, "the file has it at 512 x LBA");
    }
}

static void first_life(const char *path, const char *state_path) {
    static thinnarom_disk disk;
    static const uint8_t master[THINNAROM_PASSWORD_BYTES];
    uint8_t identity[THINNAROM_IDENTITY_BYTES];
    thinnarom_identity(identity, "BUS-0042", "1.0", "THINNAROM");
    thinnarom_disk_lend(&disk, map(path, true), length());
    thinnarom_reply made = thinnarom_disk_setup(&disk, CYLINDERS, HEADS, SECTORS_PER_TRACK, identity, master);
    expect(made.answer == THINNAROM_DONE, "setup takes the geometry");
    write_sectors(&disk);
    expect(thinnarom_disk_power_on(&disk).answer == THINNAROM_DONE, "the disk is powered on");
    keep_state(&disk, state_path);
    unmap(disk.sectors, path);
    printf("made a disk of %d sectors in a mapped file of %zu bytes, wrote %d sectors at LBA 0, %d and %d\n", CAPACITY, length(),
           (int)PLACE_COUNT * AT_ONCE, CAPACITY / 2, CAPACITY - AT_ONCE);
    printf("powered it on, kept the %d bytes of its state in a file, unmapped it\n", THINNAROM_STATE_BYTES);
}

/* The buffer was not kept: a power-on zeroes it whatever it holds. */
static void second_life(const char *path, const char *state_path) {
    static thinnarom_disk disk;
    struct stat found;
    static const uint8_t zeros[THINNAROM_BUFFER_BYTES];
    bring_state(&disk, state_path);
    memset(disk.buffer, 0xA5, sizeof disk.buffer);
    thinnarom_disk_lend(&disk, map(path, false), length());
    expect(thinnarom_disk_power_on(&disk).answer == THINNAROM_DONE, "the disk comes back to life");
    expect(memcmp(disk.buffer, zeros, sizeof zeros) == 0, "a power-on zeroes the buffer");
    read_sectors(&disk);
    unmap(disk.sectors, path);
    need(stat(path, &found) == 0, path);
    printf("the file takes %lld KiB of the medium\n", (long long)found.st_blocks / 2);
    printf("mapped it again, brought the state back, read the %d sectors: all as written\n", (int)PLACE_COUNT * AT_ONCE);
}

int main(int count, char **words) {
    char state_path[4096];
    if (count != 2 || snprintf(state_path, sizeof state_path, "%s.state", words[1]) >= (int)sizeof state_path) {
        fprintf(stderr, "usage: mapped PATH\n");
        return 2;
    }
    first_life(words[1], state_path);
    second_life(words[1], state_path);
    return 0;
}
