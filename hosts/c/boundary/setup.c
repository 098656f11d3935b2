/* Setup: counts at their limits, every identity byte with every value, lengths that are not the right ones. */
#include "checks.h"

typedef struct setup {
    uint16_t cylinders;
    uint8_t heads, sectors;
    size_t state_length, identity_length, master_length;
} setup;

static const setup RIGHT = {4, 2, 8, THINNAROM_STATE_BYTES, THINNAROM_IDENTITY_BYTES, THINNAROM_PASSWORD_BYTES};

static struct {
    piece state, buffer, identity, master;
    side at;
} given;

static uint8_t identity[THINNAROM_IDENTITY_BYTES], master[THINNAROM_PASSWORD_BYTES];
static unsigned long made;

static bool within_limits(const setup *s) {
    bool lengths = s->identity_length == THINNAROM_IDENTITY_BYTES && s->master_length == THINNAROM_PASSWORD_BYTES;
    return lengths && is_geometry(s->cylinders, s->heads, s->sectors) && is_printable(identity, sizeof identity);
}

static void fresh_state(uint8_t state[THINNAROM_STATE_BYTES], const setup *s) {
    memset(state, 0, THINNAROM_STATE_BYTES);
    memcpy(state, START, sizeof START);
    put_counts(state + CYLINDERS, s->cylinders, s->heads, s->sectors);
    put_counts(state + NOW_CYLINDERS, s->cylinders, s->heads, s->sectors);
    state[ATTEMPTS] = 5;
    memcpy(state + IDENTITY, identity, sizeof identity);
    memcpy(state + MASTER, master, sizeof master);
}

/* Lays as much of the bytes as the told length has room for; a length that no memory has is told of memory that nothing may touch,
 * no length at all of no memory. */
static const uint8_t *lay_told(piece *p, const uint8_t *bytes, size_t right, size_t told) {
    if (told == 0) {
        return NULL;
    }
    if (told > 2 * right) {
        return inaccessible();
    }
    piece_place(p, told, given.at);
    random_bytes(p->bytes, told);
    memcpy(p->bytes, bytes, told < right ? told : right);
    return p->bytes;
}

static void one(setup s) {
    uint8_t state[2 * THINNAROM_STATE_BYTES], buffer[THINNAROM_BUFFER_BYTES];
    const uint8_t *identity_told = lay_told(&given.identity, identity, sizeof identity, s.identity_length);
    const uint8_t *master_told = lay_told(&given.master, master, sizeof master, s.master_length);
    bool possible = s.state_length <= sizeof state, right = s.state_length == THINNAROM_STATE_BYTES;
    piece_place(&given.state, possible ? s.state_length : 0, given.at);
    random_bytes(given.state.bytes, given.state.length);
    random_bytes(given.buffer.bytes, given.buffer.length);
    memcpy(state, given.state.bytes, given.state.length);
    memcpy(buffer, given.buffer.bytes, sizeof buffer);
    thinnarom_reply reply =
        thinnarom_setup(possible ? given.state.bytes : inaccessible(), s.state_length, given.buffer.bytes, s.cylinders, s.heads,
                        s.sectors, identity_told, s.identity_length, master_told, s.master_length);
    uint32_t answer = !right ? THINNAROM_OUT_OF_SHAPE : within_limits(&s) ? THINNAROM_DONE : THINNAROM_SETUP_REFUSED;
    if (right) {
        memset(state, 0, sizeof state);
        memset(buffer, 0, sizeof buffer);
    }
    if (answer == THINNAROM_DONE) {
        fresh_state(state, &s);
    }
    if (reply.answer != answer || reply.value != 0) {
        fail("setup %u x %u x %u, lengths %zu, %zu, %zu: answer %u, value %u, due is %u", (unsigned)s.cylinders, (unsigned)s.heads,
             (unsigned)s.sectors, s.state_length, s.identity_length, s.master_length, (unsigned)reply.answer, (unsigned)reply.value,
             (unsigned)answer);
    }
    if (memcmp(given.state.bytes, state, given.state.length) != 0 || memcmp(given.buffer.bytes, buffer, sizeof buffer) != 0) {
        fail("setup with answer %u leaves another state or buffer than is due", (unsigned)answer);
    }
    made++;
}

static void counts(void) {
    static const uint16_t CYLINDER_COUNTS[] = {0, 1, 2, 255, 256, 1023, 1024, 1025, 1280, 65535};
    static const uint8_t SMALL_COUNTS[] = {0, 1, 2, 15, 16, 17, 32, 62, 63, 64, 128, 255};
    for (size_t c = 0; c < sizeof CYLINDER_COUNTS / sizeof CYLINDER_COUNTS[0]; c++) {
        for (size_t h = 0; h < sizeof SMALL_COUNTS; h++) {
            for (size_t s = 0; s < sizeof SMALL_COUNTS; s++) {
                setup asked = RIGHT;
                asked.cylinders = CYLINDER_COUNTS[c];
                asked.heads = SMALL_COUNTS[h];
                asked.sectors = SMALL_COUNTS[s];
                one(asked);
            }
        }
    }
}

static void identities(void) {
    for (size_t i = 0; i < sizeof identity; i++) {
        uint8_t kept = identity[i];
        for (int value = 0; value < 256; value++) {
            identity[i] = (uint8_t)value;
            one(RIGHT);
        }
        identity[i] = kept;
    }
}

/* Lengths one off, empty, doubled, that no memory has, and right in their low 32 bits only. */
static size_t wrong_length(size_t right, int which) {
    const size_t lengths[] = {0, 1, right - 1, right + 1, 2 * right, SIZE_MAX, SIZE_MAX / 2, SIZE_MAX - right};
    return which < 8 ? lengths[which] : right + ((size_t)1 << (sizeof(size_t) * 4));
}

static void wrong_lengths(void) {
    for (int which = 0; which < 9; which++) {
        setup asked = RIGHT;
        asked.state_length = wrong_length(THINNAROM_STATE_BYTES, which);
        one(asked);
        asked.cylinders = 0;
        one(asked);
        asked = RIGHT;
        asked.identity_length = wrong_length(THINNAROM_IDENTITY_BYTES, which);
        one(asked);
        asked = RIGHT;
        asked.master_length = wrong_length(THINNAROM_PASSWORD_BYTES, which);
        one(asked);
    }
}

unsigned long check_setup(side at) {
    made = 0;
    given.at = at;
    given.state = piece_of(2 * THINNAROM_STATE_BYTES);
    given.buffer = piece_of(THINNAROM_BUFFER_BYTES);
    given.identity = piece_of(2 * THINNAROM_IDENTITY_BYTES);
    given.master = piece_of(2 * THINNAROM_PASSWORD_BYTES);
    piece_place(&given.buffer, THINNAROM_BUFFER_BYTES, at);
    thinnarom_identity(identity, "BOUNDARY 1", "1.0", "LENT MEMORY");
    random_bytes(master, sizeof master);
    counts();
    identities();
    wrong_lengths();
    piece_place(&given.state, 0, at);
    piece_place(&given.buffer, 0, at);
    piece_place(&given.identity, 0, at);
    piece_place(&given.master, 0, at);
    return made;
}
