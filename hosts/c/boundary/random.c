/* States by chance: bytes of pure chance; disks in shape; such disks with one to three bytes changed, many of which stay in
 * shape. Each is followed by some calls, and every call is judged. */
#include <stdio.h>

#include "checks.h"

enum { CALLS_ON_A_STATE = 3, BULK = 2 * THINNAROM_SECTOR_BYTES };

enum event {
    SECTOR_STORED,
    NEXT_SECTOR_READ,
    BAD_ADDRESS,
    PASSWORD_SET,
    OPENED,
    MISMATCHED,
    ERASED,
    DISABLED,
    COMMAND_ABORTED,
    TRANSFER_STARTED,
    TRANSFER_CUT,
    EVENTS
};

static const char *const EVENT_NAMES[EVENTS] = {"sector stored",    "next sector read", "bad address reached", "password set",
                                                "disk opened",      "attempt taken",    "disk erased",         "security disabled",
                                                "command aborted",  "transfer started", "transfer cut by a Command"};

static unsigned long events[EVENTS], states_made[3], states_in_shape[3], kinds_in_shape[KINDS];

static void block_ended(const uint8_t *before, const uint8_t *after) {
    bool well = after[FAILED] == 0;
    events[SECTOR_STORED] += before[KIND] == WRITES;
    events[NEXT_SECTOR_READ] += before[KIND] == READS && after[KIND] == READS;
    events[PASSWORD_SET] += before[KIND] == SETS;
    events[OPENED] += before[KIND] == UNLOCKS && before[LOCK] == LOCKED && after[LOCK] == OPEN;
    events[MISMATCHED] += after[ATTEMPTS] < before[ATTEMPTS];
    events[ERASED] += before[KIND] == ERASES && before[ENABLED] && well;
    events[DISABLED] += before[KIND] == DISABLES && before[ENABLED] && well;
}

/* What a call that was done has done, as far as the state shows it. */
static void observe(const uint8_t *before, const uint8_t *after, const request *r) {
    if ((r->call == READ_WORD || r->call == WRITE_WORD) && before[PLACE] == 255) {
        block_ended(before, after);
    }
    if (r->call == WRITE_REGISTER && r->n == THINNAROM_COMMAND) {
        events[TRANSFER_STARTED] += after[KIND] != IDLE && after[PLACE] == 0;
        events[TRANSFER_CUT] += before[KIND] != IDLE && after[KIND] == IDLE;
        events[COMMAND_ABORTED] += after[FAILED] && after[ERROR] == THINNAROM_ERROR_ABRT;
    }
    events[BAD_ADDRESS] += after[ERROR] == THINNAROM_ERROR_IDNF && before[ERROR] != THINNAROM_ERROR_IDNF;
}

/* Half of the calls move words the way of the transfer that is open, where one is. */
static enum call some_call(const uint8_t *state) {
    if (below(2) == 0 && reads_words(state)) {
        return below(4) > 0 ? READ_WORD : READ_WORDS;
    }
    if (below(2) == 0 && writes_words(state)) {
        return below(4) > 0 ? WRITE_WORD : WRITE_WORDS;
    }
    return (enum call)below(CALLS);
}

/* Words that are written go on with the block that the disk was made with. */
static request next_request(lent *l, const disk *d) {
    uint8_t bytes[BULK];
    request r = random_request(some_call(l->state.bytes), BULK);
    size_t sent = (size_t)2 * l->state.bytes[PLACE], left = sizeof d->block - sent;
    random_bytes(bytes, r.length);
    memcpy(bytes, d->block + sent, left < r.length ? left : r.length);
    lend_bytes(l, bytes, r.length);
    if (below(4) > 0) {
        r.word = two_bytes(d->block + sent);
    }
    return r;
}

static void make_state(disk *d, unsigned way) {
    random_disk(d, (enum kind)below(KINDS));
    if (way == 0) {
        random_bytes(d->state, sizeof d->state);
    } else if (way == 2) {
        for (uint32_t changes = 1 + below(3); changes > 0; changes--) {
            d->state[below(THINNAROM_STATE_BYTES)] = (uint8_t)chance();
        }
    }
    states_made[way]++;
    if (broken_clauses(d->state) == 0) {
        states_in_shape[way]++;
        kinds_in_shape[d->state[KIND]]++;
    }
}

unsigned long check_random_states(side at, unsigned long pure) {
    static const unsigned WAYS_IN_TURN[] = {0, 1, 0, 2, 0, 2, 0};
    static disk d;
    lent l = lent_of(MOST_RANDOM_SECTORS * THINNAROM_SECTOR_BYTES, BULK, at);
    uint8_t before[THINNAROM_STATE_BYTES];
    unsigned long steps = 0, wanted = states_made[0] + pure;
    for (size_t turn = 0; states_made[0] < wanted; turn++) {
        make_state(&d, WAYS_IN_TURN[turn % (sizeof WAYS_IN_TURN / sizeof WAYS_IN_TURN[0])]);
        lend(&l, &d);
        for (int call = 0; call < CALLS_ON_A_STATE; call++) {
            request r = next_request(&l, &d);
            memcpy(before, l.state.bytes, sizeof before);
            if (judge(&l, &r).answer == THINNAROM_DONE) {
                observe(before, l.state.bytes, &r);
            }
        }
        steps += CALLS_ON_A_STATE;
    }
    return steps;
}

static void states_reached(void) {
    static const char *const WAYS[] = {"bytes of pure chance", "disks in shape", "such disks with one to three bytes changed"};
    for (int way = 0; way < 3; way++) {
        printf("boundary:   states: %7lu %s, %lu of them in shape\n", states_made[way], WAYS[way], states_in_shape[way]);
    }
    for (int kind = 0; kind < KINDS; kind++) {
        if (kinds_in_shape[kind] == 0) {
            fail("no state by chance had transfer %d open", kind);
        }
    }
    if (states_in_shape[1] != states_made[1] || states_in_shape[2] == 0 || states_in_shape[2] == states_made[2]) {
        fail("states by chance were not of every class");
    }
}

/* Answers 2 and 3 to every call, 1 to registers only, 4 to words only. */
static void answers_reached(void) {
    for (int call = 0; call < CALLS; call++) {
        printf("boundary:   answers:");
        for (int answer = 0; answer < ANSWERS; answer++) {
            bool registers = call == READ_REGISTER || call == WRITE_REGISTER;
            bool words = call >= READ_WORD && call <= WRITE_WORDS;
            bool possible = (answer != THINNAROM_NO_REGISTER || registers) && (answer != THINNAROM_NO_TRANSFER || words);
            printf(" %7lu x %d", answers_seen[call][answer], answer);
            if (possible != (answers_seen[call][answer] > 0)) {
                fail("%s: answer %d was seen %lu times", CALL_NAMES[call], answer, answers_seen[call][answer]);
            }
        }
        printf("  %s\n", CALL_NAMES[call]);
    }
}

void random_reached(void) {
    states_reached();
    answers_reached();
    for (int event = 0; event < EVENTS; event++) {
        printf("boundary:   reached %6lu times: %s\n", events[event], EVENT_NAMES[event]);
        if (events[event] == 0) {
            fail("never reached: %s", EVENT_NAMES[event]);
        }
    }
}
