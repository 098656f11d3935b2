#define _DEFAULT_SOURCE
#include "lent.h"

#include <stdarg.h>
#include <stdio.h>
#include <stdlib.h>
#include <string.h>
#include <sys/mman.h>
#include <unistd.h>

enum { CANARY = 0xC5, NEAR = 64 };

void fail(const char *format, ...) {
    va_list rest;
    fflush(stdout);
    fputs("boundary: ", stderr);
    va_start(rest, format);
    vfprintf(stderr, format, rest);
    va_end(rest);
    fputc('\n', stderr);
    exit(1);
}

static size_t page(void) {
    return (size_t)sysconf(_SC_PAGESIZE);
}

piece piece_of(size_t most) {
    piece p;
    p.room_length = (most + NEAR + page() - 1) / page() * page();
    uint8_t *all = mmap(NULL, p.room_length + 2 * page(), PROT_NONE, MAP_PRIVATE | MAP_ANONYMOUS, -1, 0);
    if (all == MAP_FAILED || mprotect(all + page(), p.room_length, PROT_READ | PROT_WRITE) != 0) {
        fail("no memory to lend");
    }
    p.room = all + page();
    p.bytes = p.room;
    p.length = 0;
    memset(p.room, CANARY, p.room_length);
    return p;
}

static bool all_canaries(const uint8_t *from, const uint8_t *to) {
    static uint8_t canaries[4096];
    if (canaries[0] != CANARY) {
        memset(canaries, CANARY, sizeof canaries);
    }
    while (from < to) {
        size_t length = (size_t)(to - from) < sizeof canaries ? (size_t)(to - from) : sizeof canaries;
        if (memcmp(from, canaries, length) != 0) {
            return false;
        }
        from += length;
    }
    return true;
}

void piece_place(piece *p, size_t length, side at) {
    const uint8_t *end = p->room + p->room_length;
    if (!all_canaries(p->room, p->bytes) || !all_canaries(p->bytes + p->length, end)) {
        fail("a byte outside a lent piece was changed");
    }
    if (length > p->room_length) {
        fail("a piece of %zu bytes has no room", length);
    }
    memset(p->bytes, CANARY, p->length);
    p->bytes = at == GUARD_BEHIND ? p->room + p->room_length - length : p->room;
    p->length = length;
}

bool piece_is_whole(const piece *p) {
    const uint8_t *before = p->bytes - p->room > NEAR ? p->bytes - NEAR : p->room;
    const uint8_t *behind = p->bytes + p->length, *end = p->room + p->room_length;
    return all_canaries(before, p->bytes) && all_canaries(behind, end - behind > NEAR ? behind + NEAR : end);
}

uint8_t *inaccessible(void) {
    static uint8_t *nothing;
    if (nothing == NULL) {
        nothing = mmap(NULL, page(), PROT_NONE, MAP_PRIVATE | MAP_ANONYMOUS, -1, 0);
        if (nothing == MAP_FAILED) {
            fail("no page to be kept from");
        }
    }
    return nothing;
}
