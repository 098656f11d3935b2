/* What a call has to answer, for every call, and what it has to leave, for those that neither run a command nor end a block. */
#ifndef DUE_H
#define DUE_H

#include "calls.h"

typedef struct due {
    uint32_t answer;
    bool value_known;
    uint32_t value;
    bool left_known; /* then state and buffer are these, and the sectors are as they were */
    uint8_t state[THINNAROM_STATE_BYTES];
    uint8_t buffer[THINNAROM_BUFFER_BYTES];
    bool buffer_zeroed; /* a password block has ended or was cut, and nothing else has come into the buffer */
} due;

due what_is_due(const lent *l, const request *r);

#endif
