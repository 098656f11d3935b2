/*
 * Tests of the library through its C boundary, on memory that is laid so that every touch outside it shows. What is judged is
 * answers, refusals and whatever one can say of a call without running commands; what commands do is the other tests' to say.
 *
 *     boundary [SEED]
 */
#include <stdio.h>
#include <stdlib.h>

#include "checks.h"

enum { STATES_OF_PURE_CHANCE = 1000000, BULK_ROUNDS = 20000 };

static void report(const char *check, unsigned long steps) {
    printf("boundary: %s: %lu, none amiss\n", check, steps);
    fflush(stdout);
}

int main(int count, char **words) {
    unsigned long seed = count > 1 ? strtoul(words[1], NULL, 10) : 1;
    unsigned long steps[7] = {0};
    chance_from(seed);
    printf("boundary: seed %lu; every check with inaccessible pages behind what is lent, and once more with them before it\n", seed);
    for (int side_number = 0; side_number < 2; side_number++) {
        side at = side_number == 0 ? GUARD_BEHIND : GUARD_BEFORE;
        steps[0] += check_setup(at);
        steps[1] += check_lengths(at);
        steps[2] += check_registers(at);
        steps[3] += check_every_byte(at);
        steps[4] += check_geometries(at);
        steps[5] += check_random_states(at, STATES_OF_PURE_CHANCE / 2);
        steps[6] += check_bulk(at, BULK_ROUNDS / 2);
    }
    report("setups at and beyond every limit", steps[0]);
    report("calls with lengths that are not the right ones", steps[1]);
    report("calls over all register numbers", steps[2]);
    report("calls on states with one byte set to each value", steps[3]);
    report("calls on geometries and translations at their limits", steps[4]);
    clauses_reached();
    report("calls on states by chance", steps[5]);
    random_reached();
    report("bulk calls against single ones", steps[6]);
    bulk_reached();
    return 0;
}
