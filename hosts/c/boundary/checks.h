/* The checks, each with the guard pages at one side of what is lent. A check that is not met ends the program. */
#ifndef CHECKS_H
#define CHECKS_H

#include "calls.h"

/* How many steps were made. */
unsigned long check_setup(side at);
unsigned long check_lengths(side at);
unsigned long check_registers(side at);
unsigned long check_every_byte(side at);
unsigned long check_geometries(side at);
unsigned long check_random_states(side at, unsigned long pure); /* as many of pure chance, and others in turn with them */
unsigned long check_bulk(side at, unsigned long rounds);

/* Prints what the checks reached, and fails where a class was never reached. */
void clauses_reached(void);
void random_reached(void);
void bulk_reached(void);

#endif
