/* Writes two models as one: alike FIRST SECOND JOINED. With a certificate for the joined model and a state of each part, by their
 * numbers in it, prints whether the two behave alike, yes or no: alike FIRST SECOND JOINED CERTIFICATE STATE STATE. Exit status:
 * 0 accepted, 1 refused, 2 a file could not be read or written, or a state is no number. */
#include <stdio.h>
#include <stdlib.h>

#include "common.h"

/* The answer for two states of a joined model, printed. */
static zolkirta_answer ask(const uint8_t *model, size_t length, uint32_t first_count, char **names)
{
    size_t certificate_length;
    uint8_t *certificate = read_file(names[0], &certificate_length);
    zolkirta_alike_answer said = zolkirta_alike(model, length, first_count, certificate, certificate_length,
                                                read_number(names[1], UINT32_MAX, "state"), read_number(names[2], UINT32_MAX, "state"));
    if (said.answer.number == ZOLKIRTA_ACCEPTED)
        puts(said.alike ? "yes" : "no");
    else
        print_answer(said.answer);
    free(certificate);
    return said.answer;
}

int main(int count, char **names)
{
    uint8_t joined[ZOLKIRTA_MODEL];
    uint8_t *first, *second;
    size_t first_length, second_length;
    zolkirta_answer answer;
    if (count != 4 && count != 7) {
        fprintf(stderr, "usage: %s FIRST SECOND JOINED [CERTIFICATE STATE STATE]\n", names[0]);
        return 2;
    }
    first = read_file(names[1], &first_length);
    second = read_file(names[2], &second_length);
    answer = zolkirta_join(first, first_length, second, second_length, joined, sizeof joined);
    print_answer(answer);
    if (answer.number == ZOLKIRTA_ACCEPTED) {
        write_file(names[3], joined, answer.written);
        if (count == 7)
            answer = ask(joined, answer.written, first[2], names + 4); /* a model's third byte is its state count */
    }
    free(first);
    free(second);
    return answer.number != ZOLKIRTA_ACCEPTED;
}
