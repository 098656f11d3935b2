/*
 * What a host pays for an action: nanoseconds by kind of action, from C.
 *
 *     cost               times every kind, prints KIND, a tab and the median of many rounds that take turns
 *     cost KIND ROUNDS   makes those rounds of one kind and prints how many actions they were; for counting instructions
 *                        in batch_*
 */
#define _POSIX_C_SOURCE 200809L
#include <stdio.h>
#include <stdlib.h>
#include <time.h>

#include "guest.h"

enum { SECTORS = 64, ROUNDS = 1001, COPIES = 32, BLOCKS = 8, WORDS_BEFORE_THE_LAST = THINNAROM_BLOCK_WORDS - 1 };

static uint8_t sectors[SECTORS * THINNAROM_SECTOR_BYTES], out[THINNAROM_SECTOR_BYTES];
static thinnarom_disk disk, copies[COPIES];

/* Not 0 once a timed action was refused, or a block did not pass whole: then another thing was timed than is told. */
static uint32_t amiss;

/* Called through a variable, memcpy is a call like the library's and not a few instructions in place. */
static void *(*volatile copy)(void *, const void *, size_t) = memcpy;

/* ---- What stands ready before a batch; not timed ---- */

static void idle(void) {
    thinnarom_disk_power_on(&disk);
}

static void command_open(uint8_t code) {
    guest g = guest_on(&disk);
    idle();
    guest_command_at(&g, code, 0, SECTORS);
}

static void reading(void) {
    command_open(THINNAROM_READ_SECTORS);
}

static void writing(void) {
    command_open(THINNAROM_WRITE_SECTORS);
}

/* Copies of the disk that stand before a block's last word each. */
static void at_last_words(uint8_t code) {
    uint8_t words[2 * WORDS_BEFORE_THE_LAST] = {0};
    command_open(code);
    if (code == THINNAROM_READ_SECTORS) {
        thinnarom_disk_read_words(&disk, words, sizeof words);
    } else {
        thinnarom_disk_write_words(&disk, words, sizeof words);
    }
    for (int i = 0; i < COPIES; i++) {
        copies[i] = disk;
    }
}

static void at_last_words_read(void) {
    at_last_words(THINNAROM_READ_SECTORS);
}

static void at_last_words_written(void) {
    at_last_words(THINNAROM_WRITE_SECTORS);
}

/* ---- Batches of one kind ---- */

static void batch_register_read(void) {
    for (int i = 0; i < SECTORS; i++) {
        amiss |= thinnarom_disk_read_register(&disk, THINNAROM_STATUS).answer;
    }
}

static void batch_register_write(void) {
    for (int i = 0; i < SECTORS; i++) {
        amiss |= thinnarom_disk_write_register(&disk, THINNAROM_SECTOR_COUNT, (uint8_t)i).answer;
    }
}

static void batch_word_read(void) {
    for (int i = 0; i < WORDS_BEFORE_THE_LAST; i++) {
        amiss |= thinnarom_disk_read_word(&disk).answer;
    }
}

static void batch_word_write(void) {
    for (int i = 0; i < WORDS_BEFORE_THE_LAST; i++) {
        amiss |= thinnarom_disk_write_word(&disk, (uint16_t)i).answer;
    }
}

static void batch_last_word_read(void) {
    for (int i = 0; i < COPIES; i++) {
        amiss |= thinnarom_disk_read_word(&copies[i]).answer;
    }
}

static void batch_last_word_write(void) {
    for (int i = 0; i < COPIES; i++) {
        amiss |= thinnarom_disk_write_word(&copies[i], (uint16_t)i).answer;
    }
}

static void batch_command(void) {
    for (int i = 0; i < SECTORS; i++) {
        amiss |= thinnarom_disk_write_register(&disk, THINNAROM_COMMAND, THINNAROM_READ_SECTORS).answer;
    }
}

static void batch_words_read(void) {
    for (int i = 0; i < BLOCKS * THINNAROM_BLOCK_WORDS; i++) {
        amiss |= thinnarom_disk_read_word(&disk).answer;
    }
}

static void batch_words_write(void) {
    for (int i = 0; i < BLOCKS * THINNAROM_BLOCK_WORDS; i++) {
        amiss |= thinnarom_disk_write_word(&disk, (uint16_t)i).answer;
    }
}

static void batch_bulk_read(void) {
    for (int i = 0; i < SECTORS - 1; i++) {
        amiss |= thinnarom_disk_read_words(&disk, out, sizeof out).value ^ THINNAROM_BLOCK_WORDS;
    }
}

static void batch_bulk_write(void) {
    for (int i = 0; i < SECTORS - 1; i++) {
        amiss |= thinnarom_disk_write_words(&disk, out, sizeof out).value ^ THINNAROM_BLOCK_WORDS;
    }
}

static void batch_one_read(void) {
    for (int i = 0; i < WORDS_BEFORE_THE_LAST; i++) {
        amiss |= thinnarom_disk_read_words(&disk, out, 2).answer;
    }
}

static void batch_one_written(void) {
    for (int i = 0; i < WORDS_BEFORE_THE_LAST; i++) {
        amiss |= thinnarom_disk_write_words(&disk, out, 2).answer;
    }
}

static void batch_nothing(void) {
    for (int i = 0; i < SECTORS; i++) {
        amiss |= thinnarom_disk_read_words(&disk, out, 0).answer;
    }
}

static void batch_memcpy(void) {
    for (size_t i = 0; i < SECTORS; i++) {
        copy(out, sectors + i * THINNAROM_SECTOR_BYTES, sizeof out);
    }
}

typedef struct row {
    const char *kind;
    void (*prepare)(void);
    void (*batch)(void);
    unsigned actions; /* in a batch */
} row;

static const row ROWS[] = {{"register-read", idle, batch_register_read, SECTORS},
                           {"register-write", idle, batch_register_write, SECTORS},
                           {"word-read", reading, batch_word_read, WORDS_BEFORE_THE_LAST},
                           {"word-write", writing, batch_word_write, WORDS_BEFORE_THE_LAST},
                           {"last-word-read", at_last_words_read, batch_last_word_read, COPIES},
                           {"last-word-write", at_last_words_written, batch_last_word_write, COPIES},
                           {"command", reading, batch_command, SECTORS},
                           {"words-read", reading, batch_words_read, BLOCKS},
                           {"words-write", writing, batch_words_write, BLOCKS},
                           {"bulk-read", reading, batch_bulk_read, SECTORS - 1},
                           {"bulk-write", writing, batch_bulk_write, SECTORS - 1},
                           {"one-read", reading, batch_one_read, WORDS_BEFORE_THE_LAST},
                           {"one-write", writing, batch_one_written, WORDS_BEFORE_THE_LAST},
                           {"nothing", idle, batch_nothing, SECTORS},
                           {"memcpy", idle, batch_memcpy, SECTORS}};
enum { ROW_COUNT = sizeof ROWS / sizeof ROWS[0] };

static double nanoseconds(void) {
    struct timespec now;
    clock_gettime(CLOCK_MONOTONIC, &now);
    return (double)now.tv_sec * 1e9 + (double)now.tv_nsec;
}

static double timed(const row *r) {
    r->prepare();
    double began = nanoseconds();
    r->batch();
    double took = nanoseconds() - began;
    expect(amiss == 0, "every timed action is done, every block passes whole");
    return took / r->actions;
}

static int by_size(const void *one, const void *other) {
    double a = *(const double *)one, b = *(const double *)other;
    return (a > b) - (a < b);
}

/* The kinds take turns, so that whatever else the machine does meets all of them. */
static void time_all(void) {
    static double times[ROW_COUNT][ROUNDS];
    for (int round = 0; round < ROUNDS; round++) {
        for (int r = 0; r < ROW_COUNT; r++) {
            times[r][round] = timed(&ROWS[r]);
        }
    }
    for (int r = 0; r < ROW_COUNT; r++) {
        qsort(times[r], ROUNDS, sizeof times[r][0], by_size);
        printf("%s\t%.1f\n", ROWS[r].kind, times[r][ROUNDS / 2]);
    }
}

static int only(const char *kind, int rounds) {
    for (int r = 0; r < ROW_COUNT; r++) {
        if (strcmp(ROWS[r].kind, kind) == 0) {
            for (int round = 0; round < rounds; round++) {
                timed(&ROWS[r]);
            }
            printf("%d\n", rounds * (int)ROWS[r].actions);
            return 0;
        }
    }
    fprintf(stderr, "cost: no kind %s\n", kind);
    return 2;
}

int main(int count, char **words) {
    static const uint8_t master[THINNAROM_PASSWORD_BYTES];
    uint8_t identity[THINNAROM_IDENTITY_BYTES];
    thinnarom_identity(identity, "COST", "1.0", "THINNAROM");
    thinnarom_disk_lend(&disk, sectors, sizeof sectors);
    expect(thinnarom_disk_setup(&disk, 4, 2, 8, identity, master).answer == THINNAROM_DONE, "setup takes the geometry");
    if (count == 3) {
        return only(words[1], atoi(words[2]));
    }
    time_all();
    return 0;
}
