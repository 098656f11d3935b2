#include "guest.h"

#include <stdio.h>
#include <stdlib.h>

guest guest_on(thinnarom_disk *disk) {
    guest g = {disk, UINT64_C(0xCBF29CE484222325), 0, 0, 0};
    return g;
}

void expect(bool met, const char *expectation) {
    if (!met) {
        fflush(stdout);
        fprintf(stderr, "not met: %s\n", expectation);
        exit(1);
    }
}

/* FNV-1a, byte by byte. */
static void hear(guest *g, const void *told, size_t length) {
    const uint8_t *bytes = (const uint8_t *)told;
    for (size_t i = 0; i < length; i++) {
        g->heard = (g->heard ^ bytes[i]) * UINT64_C(0x100000001B3);
    }
}

static thinnarom_reply heard(guest *g, thinnarom_reply reply) {
    hear(g, &reply.answer, sizeof reply.answer);
    hear(g, &reply.value, sizeof reply.value);
    return reply;
}

uint8_t guest_read(guest *g, uint8_t n) {
    thinnarom_reply reply = heard(g, thinnarom_disk_read_register(g->disk, n));
    expect(reply.answer == THINNAROM_DONE, "a register is read");
    return (uint8_t)reply.value;
}

void guest_write(guest *g, uint8_t n, uint8_t v) {
    thinnarom_reply reply = heard(g, thinnarom_disk_write_register(g->disk, n, v));
    expect(reply.answer == THINNAROM_DONE, "a register is written");
}

void guest_command_at(guest *g, uint8_t code, uint32_t lba, uint8_t count) {
    guest_write(g, THINNAROM_SECTOR_COUNT, count);
    guest_write(g, THINNAROM_SECTOR_NUMBER, (uint8_t)lba);
    guest_write(g, THINNAROM_CYLINDER_LOW, (uint8_t)(lba >> 8));
    guest_write(g, THINNAROM_CYLINDER_HIGH, (uint8_t)(lba >> 16));
    guest_write(g, THINNAROM_DEVICE_HEAD, (uint8_t)(THINNAROM_DEVICE_HEAD_LBA | ((lba >> 24) & 0x0F)));
    guest_write(g, THINNAROM_COMMAND, code);
}

thinnarom_reply guest_read_word(guest *g) {
    thinnarom_reply reply = heard(g, thinnarom_disk_read_word(g->disk));
    g->words += reply.answer == THINNAROM_DONE;
    return reply;
}

thinnarom_reply guest_write_word(guest *g, uint16_t w) {
    return heard(g, thinnarom_disk_write_word(g->disk, w));
}

size_t guest_read_words(guest *g, uint8_t *out, size_t length) {
    thinnarom_reply reply = heard(g, thinnarom_disk_read_words(g->disk, out, length));
    hear(g, out, 2 * (size_t)reply.value);
    g->words += reply.value;
    return reply.value;
}

size_t guest_write_words(guest *g, const uint8_t *bytes, size_t length) {
    return heard(g, thinnarom_disk_write_words(g->disk, bytes, length)).value;
}

uint8_t guest_software_reset(guest *g) {
    guest_write(g, THINNAROM_DEVICE_CONTROL, THINNAROM_DEVICE_CONTROL_SRST);
    uint8_t held = guest_read(g, THINNAROM_STATUS);
    guest_write(g, THINNAROM_DEVICE_CONTROL, 0);
    return held;
}

void password_block(uint8_t block[THINNAROM_SECTOR_BYTES], uint16_t control, const char *password) {
    size_t length = strlen(password);
    expect(length <= THINNAROM_PASSWORD_BYTES, "a password has at most 32 bytes");
    memset(block, 0, THINNAROM_SECTOR_BYTES);
    block[0] = (uint8_t)control;
    block[1] = (uint8_t)(control >> 8);
    memcpy(block + 2, password, length);
}

uint16_t word_of(const uint8_t *block, size_t place) {
    return (uint16_t)(block[2 * place] | block[2 * place + 1] << 8);
}
