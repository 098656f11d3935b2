/* The nine calls on a disk as values; the disk lent to them; and the judging of what a call gave and left. */
#ifndef CALLS_H
#define CALLS_H

#include "disks.h"
#include "lent.h"

enum call { READ_REGISTER, WRITE_REGISTER, READ_WORD, WRITE_WORD, READ_WORDS, WRITE_WORDS, HARDWARE_RESET, POWER_ON, LINE, CALLS };

extern const char *const CALL_NAMES[CALLS];

typedef struct request {
    enum call call;
    uint8_t n, v; /* register and value */
    uint16_t word;
    size_t length; /* of the bytes that a bulk call is lent */
} request;

/* What stands lent, and what the library is told of it: other lengths, or another place, where a check means to mislead it. */
typedef struct lent {
    piece state, buffer, sectors, bytes;
    side at;
    uint8_t *state_told, *sectors_told;
    size_t state_length, sectors_length;
} lent;

/* The most bytes that a bulk call is lent: more than a whole disk's. */
enum { MOST_BULK = MOST_SECTOR_BYTES + 2 * THINNAROM_SECTOR_BYTES };

/* Answers by call, over all that was judged. */
enum { ANSWERS = 5 };
extern unsigned long answers_seen[CALLS][ANSWERS];

lent lent_of(size_t most_sector_bytes, size_t most_bytes, side at);

/* Lays the disk into the lent pieces and tells the library the truth about them. */
void lend(lent *l, const disk *d);
void lend_bytes(lent *l, const uint8_t *bytes, size_t length);

/* Makes the call and nothing else. */
thinnarom_reply call_library(lent *l, const request *r);

/* Makes the call and fails unless it gave and left what is due. */
thinnarom_reply judge(lent *l, const request *r);

/* Some request; registers and commands that mean something come more often than by pure chance. */
request random_request(enum call call, size_t most_bytes);

#endif
