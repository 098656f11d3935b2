/* Memory to lend, laid so that a touch outside it shows: an inaccessible page stands at one side of each piece and canary
 * bytes at the other. The library is not instrumented by the sanitizers; this is what catches it. */
#ifndef LENT_H
#define LENT_H

#include <stdbool.h>
#include <stddef.h>
#include <stdint.h>

typedef enum side { GUARD_BEHIND, GUARD_BEFORE } side;

typedef struct piece {
    uint8_t *room; /* accessible pages between two inaccessible ones */
    size_t room_length;
    uint8_t *bytes; /* the piece, at one end of the room */
    size_t length;
} piece;

/* Room for pieces of up to `most` bytes. */
piece piece_of(size_t most);

/* Lays a piece of this length against the inaccessible page of that side, over canaries, once those of the last one are checked. */
void piece_place(piece *p, size_t length, side at);

/* Whether the canaries next to the piece are whole; all of them are checked when the next piece is placed. */
bool piece_is_whole(const piece *p);

/* Memory that nothing may touch. */
uint8_t *inaccessible(void);

/* Ends the program with a line that says what went wrong. */
void fail(const char *format, ...);

#endif
