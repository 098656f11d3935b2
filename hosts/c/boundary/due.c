#include "due.h"

enum { LAST_PLACE = 255 };

static uint32_t answer_due(const lent *l, const request *r) {
    const uint8_t *s = l->state.bytes;
    if (l->state_length != THINNAROM_STATE_BYTES || broken_clauses(s) != 0) {
        return THINNAROM_OUT_OF_SHAPE;
    }
    if (l->sectors_length != (size_t)THINNAROM_SECTOR_BYTES * capacity_of(s)) {
        return THINNAROM_WRONG_LENGTH;
    }
    switch (r->call) {
    case READ_REGISTER:
    case WRITE_REGISTER:
        return r->n < 1 || r->n > 8 ? THINNAROM_NO_REGISTER : THINNAROM_DONE;
    case READ_WORD:
        return reads_words(s) ? THINNAROM_DONE : THINNAROM_NO_TRANSFER;
    case WRITE_WORD:
        return writes_words(s) ? THINNAROM_DONE : THINNAROM_NO_TRANSFER;
    case READ_WORDS:
        return r->length < 2 || reads_words(s) ? THINNAROM_DONE : THINNAROM_NO_TRANSFER;
    case WRITE_WORDS:
        return r->length < 2 || writes_words(s) ? THINNAROM_DONE : THINNAROM_NO_TRANSFER;
    default:
        return THINNAROM_DONE;
    }
}

static uint8_t status_of(const uint8_t *s) {
    if (s[DEVICE_HEAD] & THINNAROM_DEVICE_HEAD_DEV) {
        return 0x00;
    }
    return s[HELD] ? 0x80 : s[KIND] != IDLE ? 0x58 : s[FAILED] ? 0x51 : 0x50;
}

static void register_read(due *d, const request *r) {
    uint8_t *s = d->state;
    d->value = r->n == THINNAROM_ERROR ? s[ERROR] : r->n < THINNAROM_STATUS ? s[r->n] : status_of(s);
    if (r->n == THINNAROM_STATUS && !(s[DEVICE_HEAD] & THINNAROM_DEVICE_HEAD_DEV)) {
        s[RAISED] = 0;
    }
}

/* What all resets leave alike. */
static void reset(due *d) {
    uint8_t *s = d->state;
    memcpy(s, START, sizeof START);
    memset(s + RAISED, 0, CYLINDERS - RAISED);
    memcpy(s + NOW_CYLINDERS, s + CYLINDERS, NOW_CYLINDERS - CYLINDERS);
    s[PREPARED] = 0;
    memset(d->buffer, 0, sizeof d->buffer);
}

static void powered_on(due *d) {
    uint8_t *s = d->state;
    reset(d);
    s[HELD] = 0;
    s[MASKED] = 0;
    s[LOCK] = s[ENABLED] ? LOCKED : OPEN;
    s[ATTEMPTS] = 5;
}

static void register_written(due *d, const request *r) {
    uint8_t *s = d->state;
    if (r->n == THINNAROM_DEVICE_CONTROL) {
        s[HELD] = (r->v & THINNAROM_DEVICE_CONTROL_SRST) != 0;
        s[MASKED] = (r->v & THINNAROM_DEVICE_CONTROL_NIEN) != 0;
        if (s[HELD]) {
            reset(d);
        }
    } else if (r->n == THINNAROM_COMMAND) {
        bool loads = r->v == 0x20 || r->v == 0x21 || r->v == THINNAROM_IDENTIFY_DEVICE;
        d->left_known = false;
        d->buffer_zeroed = s[KIND] >= SETS && !loads;
    } else if (s[KIND] == IDLE && !s[HELD]) {
        s[r->n == THINNAROM_FEATURES ? FEATURES : r->n] = r->v;
    }
}

/* A data word that is not its block's last moves the place on. */
static void word_moved(due *d, const request *r) {
    uint8_t place = d->state[PLACE], *at = d->buffer + (size_t)2 * place;
    if (r->call == READ_WORD) {
        d->value = two_bytes(at);
    } else {
        at[0] = (uint8_t)r->word;
        at[1] = (uint8_t)(r->word >> 8);
    }
    d->left_known = place != LAST_PLACE;
    d->buffer_zeroed = place == LAST_PLACE && d->state[KIND] >= SETS;
    d->state[PLACE] = (uint8_t)(place + 1);
}

static void act(due *d, const request *r) {
    switch (r->call) {
    case READ_REGISTER:
        register_read(d, r);
        break;
    case WRITE_REGISTER:
        register_written(d, r);
        break;
    case READ_WORD:
    case WRITE_WORD:
        word_moved(d, r);
        break;
    case HARDWARE_RESET:
    case POWER_ON:
        powered_on(d);
        break;
    case LINE:
        d->value = d->state[RAISED] && !d->state[MASKED];
        break;
    default: /* a bulk call is compared with single ones */
        d->value_known = d->left_known = r->length < 2;
        break;
    }
}

due what_is_due(const lent *l, const request *r) {
    due d;
    d.answer = answer_due(l, r);
    d.value_known = d.left_known = true;
    d.buffer_zeroed = false;
    d.value = 0;
    memset(d.state, 0, sizeof d.state);
    memcpy(d.state, l->state.bytes, l->state.length < sizeof d.state ? l->state.length : sizeof d.state);
    memcpy(d.buffer, l->buffer.bytes, sizeof d.buffer);
    if (d.answer == THINNAROM_DONE) {
        act(&d, r);
    }
    return d;
}
