#include "calls.h"

#include <stdio.h>

#include "due.h"

const char *const CALL_NAMES[CALLS] = {"read_register", "write_register", "read_word",      "write_word", "read_words",
                                       "write_words",   "hardware_reset", "power_on",       "line"};

unsigned long answers_seen[CALLS][ANSWERS];

lent lent_of(size_t most_sector_bytes, size_t most_bytes, side at) {
    lent l;
    l.state = piece_of(THINNAROM_STATE_BYTES);
    l.buffer = piece_of(THINNAROM_BUFFER_BYTES);
    l.sectors = piece_of(most_sector_bytes);
    l.bytes = piece_of(most_bytes);
    l.at = at;
    return l;
}

static void lay(piece *p, const uint8_t *bytes, size_t length, side at) {
    if (p->length != length || length == 0) {
        piece_place(p, length, at);
    }
    memcpy(p->bytes, bytes, length);
}

void lend(lent *l, const disk *d) {
    lay(&l->state, d->state, sizeof d->state, l->at);
    lay(&l->buffer, d->buffer, sizeof d->buffer, l->at);
    lay(&l->sectors, d->sectors, d->sectors_length, l->at);
    l->state_told = l->state.bytes;
    l->state_length = l->state.length;
    l->sectors_told = l->sectors.bytes;
    l->sectors_length = l->sectors.length;
}

void lend_bytes(lent *l, const uint8_t *bytes, size_t length) {
    lay(&l->bytes, bytes, length, l->at);
}

#define LENT l->state_told, l->state_length, l->buffer.bytes, l->sectors_told, l->sectors_length

thinnarom_reply call_library(lent *l, const request *r) {
    uint8_t *bytes = r->length == 0 ? NULL : l->bytes.bytes;
    switch (r->call) {
    case READ_REGISTER:
        return thinnarom_read_register(LENT, r->n);
    case WRITE_REGISTER:
        return thinnarom_write_register(LENT, r->n, r->v);
    case READ_WORD:
        return thinnarom_read_word(LENT);
    case WRITE_WORD:
        return thinnarom_write_word(LENT, r->word);
    case READ_WORDS:
        return thinnarom_read_words(LENT, bytes, r->length);
    case WRITE_WORDS:
        return thinnarom_write_words(LENT, bytes, r->length);
    case HARDWARE_RESET:
        return thinnarom_hardware_reset(LENT);
    case POWER_ON:
        return thinnarom_power_on(LENT);
    default:
        return thinnarom_line(LENT);
    }
}

/* What a call found, to be compared with what it leaves. */
static struct {
    uint8_t state[THINNAROM_STATE_BYTES], sectors[MOST_SECTOR_BYTES], bytes[MOST_BULK];
} found;

static void tell_failure(const lent *l, const request *r, thinnarom_reply reply, const char *what) {
    fflush(stdout);
    fprintf(stderr, "%s, register %02X, value %02X, word %04X, %zu bytes; told lengths %zu and %zu; answer %u, value %u\n",
            CALL_NAMES[r->call], (unsigned)r->n, (unsigned)r->v, (unsigned)r->word, r->length, l->state_length, l->sectors_length,
            (unsigned)reply.answer, (unsigned)reply.value);
    for (size_t i = 0; i < l->state.length; i++) {
        fprintf(stderr, "%02X%s", (unsigned)found.state[i], i % 32 == 31 ? "\n" : " ");
    }
    fputc('\n', stderr);
    fail("%s", what);
}

static bool sectors_may_change(const request *r) {
    return (r->call == WRITE_WORD || r->call == WRITE_WORDS) && (found.state[KIND] == WRITES || found.state[KIND] == ERASES);
}

/* Geometry and identity are setup's alone. */
static bool keeps_what_setup_made(const uint8_t *s) {
    return memcmp(s + CYLINDERS, found.state + CYLINDERS, NOW_CYLINDERS - CYLINDERS) == 0 &&
           memcmp(s + IDENTITY, found.state + IDENTITY, USER - IDENTITY) == 0;
}

/* The bytes of a bulk call: what is written stays, what is read comes to lie at the front. */
static bool bytes_are_right(const lent *l, const request *r, thinnarom_reply reply) {
    size_t taken = r->call == READ_WORDS ? 2 * (size_t)reply.value : 0;
    return taken <= r->length && memcmp(l->bytes.bytes + taken, found.bytes + taken, l->bytes.length - taken) == 0;
}

static bool all_zero(const uint8_t *bytes, size_t length) {
    return bytes[0] == 0 && memcmp(bytes, bytes + 1, length - 1) == 0;
}

static const char *complaint(const lent *l, const request *r, thinnarom_reply reply, const due *d) {
    bool done = reply.answer == THINNAROM_DONE;
    if (reply.answer != d->answer) {
        return "the answer is not the one that is due";
    }
    if ((d->value_known && reply.value != d->value) || reply.value > (r->length < 2 ? 0xFFFF : r->length / 2)) {
        return "the value is not the one that is due";
    }
    if (d->left_known && (memcmp(l->state.bytes, d->state, l->state.length) != 0 ||
                          memcmp(l->buffer.bytes, d->buffer, sizeof d->buffer) != 0)) {
        return done ? "state or buffer are not what is due" : "a refused call changed state or buffer";
    }
    if (d->buffer_zeroed && !all_zero(l->buffer.bytes, l->buffer.length)) {
        return "a password block leaves something in the buffer";
    }
    if (!(done && sectors_may_change(r)) && memcmp(l->sectors.bytes, found.sectors, l->sectors.length) != 0) {
        return "sectors changed";
    }
    if (!bytes_are_right(l, r, reply)) {
        return "bytes of a bulk call changed";
    }
    if (done && (broken_clauses(l->state.bytes) != 0 || !keeps_what_setup_made(l->state.bytes))) {
        return "the state left is out of shape, or of another disk";
    }
    if (!piece_is_whole(&l->state) || !piece_is_whole(&l->buffer) || !piece_is_whole(&l->sectors) || !piece_is_whole(&l->bytes)) {
        return "a byte outside what was lent was changed";
    }
    return NULL;
}

thinnarom_reply judge(lent *l, const request *r) {
    memcpy(found.state, l->state.bytes, l->state.length);
    memcpy(found.sectors, l->sectors.bytes, l->sectors.length);
    memcpy(found.bytes, l->bytes.bytes, l->bytes.length);
    due d = what_is_due(l, r);
    thinnarom_reply reply = call_library(l, r);
    const char *wrong = complaint(l, r, reply, &d);
    if (wrong != NULL) {
        tell_failure(l, r, reply, wrong);
    }
    answers_seen[r->call][reply.answer]++;
    return reply;
}

static uint8_t some_command(void) {
    static const uint8_t CODES[] = {0x10, 0x20, 0x21, 0x30, 0x31, 0x40, 0x70, 0x90, 0x91, 0xE4,
                                    0xE8, 0xEC, 0xF1, 0xF2, 0xF3, 0xF4, 0xF5, 0xF6, 0x00};
    return CODES[below(sizeof CODES)];
}

request random_request(enum call call, size_t most_bytes) {
    request r = {call, (uint8_t)below(11), (uint8_t)chance(), (uint16_t)chance(), 0};
    if (below(8) == 0) {
        r.n = (uint8_t)chance();
    }
    if (r.n == THINNAROM_COMMAND && below(4) > 0) {
        r.v = some_command();
    }
    if (call == READ_WORDS || call == WRITE_WORDS) {
        r.length = below((uint32_t)most_bytes + 1);
    }
    return r;
}
