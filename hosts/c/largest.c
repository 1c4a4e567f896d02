/* Writes the pair with the most flow records that an accepted one of so many states and transitions has: largest STATES TRANSITIONS MODEL
 * CERTIFICATE. Exit status: 0 written, 1 refused, 2 a file could not be written, or a word is no number. */
#include <stdio.h>

#include "common.h"

/* Long enough for every size. */
static uint8_t model[ZOLKIRTA_LARGEST_MODEL(ZOLKIRTA_STATES, ZOLKIRTA_TRANSITIONS)];
static uint8_t certificate[ZOLKIRTA_LARGEST_CERTIFICATE(ZOLKIRTA_STATES, ZOLKIRTA_TRANSITIONS)];

int main(int count, char **names)
{
    zolkirta_pair_answer said;
    uint32_t states, transitions;
    if (count != 5) {
        fprintf(stderr, "usage: %s STATES TRANSITIONS MODEL CERTIFICATE\n", names[0]);
        return 2;
    }
    states = read_number(names[1], UINT32_MAX, "number of states");
    transitions = read_number(names[2], UINT32_MAX, "number of transitions");
    said = zolkirta_largest(states, transitions, model, sizeof model, certificate, sizeof certificate);
    print_answer(said.answer);
    if (said.answer.number == ZOLKIRTA_ACCEPTED) {
        printf("%zu flow records, %zu bytes\n", ZOLKIRTA_FLOWS(states, transitions), said.certificate_written);
        write_file(names[3], model, said.answer.written);
        write_file(names[4], certificate, said.certificate_written);
    }
    return said.answer.number != ZOLKIRTA_ACCEPTED;
}
