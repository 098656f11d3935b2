/* A bulk call against as many single ones on a copy: the same words, the same number, the same state, buffer and sectors. */
#include <stdio.h>

#include "checks.h"

enum class {
    REFUSED,
    NO_ROOM,
    ODD_LENGTH,
    WITHIN_A_BLOCK,
    OVER_BLOCK_ENDS,
    ENDED_BEFORE_THE_LAST_WORD,
    ENDED_BY_A_BAD_ADDRESS,
    WHOLE_COMMAND_OF_256_SECTORS,
    CLASSES
};

static const char *const CLASS_NAMES[CLASSES] = {
    "refused",           "room for no word",           "odd length",           "within a block", "over block ends",
    "ended before the last word", "ended by a bad address", "256 sectors at once"};

static unsigned long classes[2][CLASSES], rounds_by_kind[KINDS];

/* As many single calls as the bulk call would make, on their own copy; how many passed. */
static uint32_t one_by_one(lent *single, bool reads, uint8_t *bytes, size_t length, uint32_t *first_answer) {
    request r = {reads ? READ_WORD : WRITE_WORD, 0, 0, 0, 0};
    for (uint32_t i = 0; i < length / 2; i++) {
        r.word = two_bytes(bytes + (size_t)2 * i);
        thinnarom_reply reply = call_library(single, &r);
        if (i == 0) {
            *first_answer = reply.answer;
        }
        if (reply.answer != THINNAROM_DONE) {
            return i;
        }
        if (reads) {
            bytes[(size_t)2 * i] = (uint8_t)reply.value;
            bytes[(size_t)2 * i + 1] = (uint8_t)(reply.value >> 8);
        }
    }
    return (uint32_t)(length / 2);
}

static bool same(const piece *one, const piece *other) {
    return one->length == other->length && memcmp(one->bytes, other->bytes, one->length) == 0;
}

static void count_classes(const disk *d, const request *r, thinnarom_reply reply, const uint8_t *after) {
    unsigned long *seen = classes[r->call == READ_WORDS ? 0 : 1];
    uint32_t words = (uint32_t)(r->length / 2), to_the_end = 256u - d->state[PLACE];
    rounds_by_kind[d->state[KIND]]++;
    seen[REFUSED] += reply.answer != THINNAROM_DONE;
    seen[NO_ROOM] += words == 0;
    seen[ODD_LENGTH] += r->length % 2 == 1 && reply.value > 0;
    seen[WITHIN_A_BLOCK] += reply.value > 0 && reply.value < to_the_end;
    seen[OVER_BLOCK_ENDS] += reply.value > to_the_end;
    seen[ENDED_BEFORE_THE_LAST_WORD] += reply.value > 0 && reply.value < words;
    seen[ENDED_BY_A_BAD_ADDRESS] += reply.value > 0 && after[KIND] == IDLE && after[ERROR] == THINNAROM_ERROR_IDNF;
    seen[WHOLE_COMMAND_OF_256_SECTORS] += reply.value == 256u * THINNAROM_BLOCK_WORDS && after[KIND] == IDLE;
}

/* One bulk call, judged by itself, and then beside single ones. */
static void compare(lent *bulk, lent *single, const disk *d, const request *r) {
    static uint8_t bytes[MOST_BULK];
    bool reads = r->call == READ_WORDS;
    uint32_t answer = THINNAROM_DONE;
    size_t sent = (size_t)2 * d->state[PLACE], left = sizeof d->block - sent;
    random_bytes(bytes, r->length);
    if (!reads) {
        memcpy(bytes, d->block + sent, left < r->length ? left : r->length);
    }
    lend(bulk, d);
    lend_bytes(bulk, bytes, r->length);
    lend(single, d);
    thinnarom_reply reply = judge(bulk, r);
    uint32_t passed = one_by_one(single, reads, bytes, r->length, &answer);
    if (reply.answer != answer || reply.value != passed) {
        fail("%s of %zu bytes with transfer %d: answer %u, %u words; single calls: answer %u, %u words", CALL_NAMES[r->call], r->length,
             (int)d->state[KIND], (unsigned)reply.answer, (unsigned)reply.value, (unsigned)answer, (unsigned)passed);
    }
    if (memcmp(bulk->bytes.bytes, bytes, r->length) != 0) {
        fail("%s of %zu bytes with transfer %d: other words than single calls", CALL_NAMES[r->call], r->length, (int)d->state[KIND]);
    }
    if (!same(&bulk->state, &single->state) || !same(&bulk->buffer, &single->buffer) || !same(&bulk->sectors, &single->sectors)) {
        fail("%s of %zu bytes with transfer %d leaves another disk than single calls", CALL_NAMES[r->call], r->length, (int)d->state[KIND]);
    }
    count_classes(d, r, reply, bulk->state.bytes);
}

static size_t some_length(void) {
    switch (below(4)) {
    case 0:
        return below(6);
    case 1:
        return 508 + below(10);
    case 2:
        return below(4 * THINNAROM_SECTOR_BYTES);
    default:
        return below((MOST_RANDOM_SECTORS + 2) * THINNAROM_SECTOR_BYTES);
    }
}

/* The longest command there is, from LBA 10 on, all of it in one call that has room for more. */
static void whole_command(lent *bulk, lent *single, enum kind kind, enum call call) {
    static disk d;
    request r = {call, 0, 0, 0, 256 * THINNAROM_SECTOR_BYTES + 7};
    random_disk_of(&d, kind, 4, 8, 9);
    memset(d.state + RUN_ADDRESS, 0, 4);
    d.state[RUN_ADDRESS] = 10;
    d.state[RUN_ADDRESS + 3] = THINNAROM_DEVICE_HEAD_LBA;
    d.state[RUN_AFTER] = 255;
    d.state[PLACE] = 0;
    compare(bulk, single, &d, &r);
}

unsigned long check_bulk(side at, unsigned long rounds) {
    static disk d;
    lent bulk = lent_of(MOST_SECTOR_BYTES, MOST_BULK, at), single = lent_of(MOST_SECTOR_BYTES, 1, at);
    for (unsigned long i = 0; i < rounds; i++) {
        random_disk(&d, (enum kind)(i % KINDS));
        /* mostly the way of the transfer, so that words pass */
        enum call call = reads_words(d.state) == (below(8) > 0) ? READ_WORDS : WRITE_WORDS;
        request r = {call, 0, 0, 0, some_length()};
        compare(&bulk, &single, &d, &r);
    }
    whole_command(&bulk, &single, READS, READ_WORDS);
    whole_command(&bulk, &single, WRITES, WRITE_WORDS);
    return rounds + 2;
}

void bulk_reached(void) {
    for (int class = 0; class < CLASSES; class++) {
        printf("boundary:   bulk: %6lu read, %6lu written: %s\n", classes[0][class], classes[1][class], CLASS_NAMES[class]);
        if (classes[0][class] == 0 || classes[1][class] == 0) {
            fail("never reached by a bulk call: %s", CLASS_NAMES[class]);
        }
    }
    for (int kind = 0; kind < KINDS; kind++) {
        if (rounds_by_kind[kind] == 0) {
            fail("no bulk call with transfer %d", kind);
        }
    }
}
