/* Reads a model and a certificate, and prints the answer: judge MODEL CERTIFICATE [MERGED [SHEET]]. With a third name the merged model is
 * written there, and with a fourth one the block sheet. A certificate that begins with CC is one for a cost model, and one with CS is judged by
 * strong bisimulation; for both neither is written. Exit status: 0 accepted, 1 refused, 2 a file could not be read or written. */
#include <stdio.h>
#include <stdlib.h>

#include "common.h"

/* Judges by the rule that the certificate is for, and prints the answer and the blocks. */
static zolkirta_answer judge(const uint8_t *model, size_t model_length, const uint8_t *certificate, size_t certificate_length)
{
    uint8_t blocks[ZOLKIRTA_STATES];
    size_t state;
    zolkirta_answer (*judged)(const uint8_t *, size_t, const uint8_t *, size_t, uint8_t *, size_t) = zolkirta_judge;
    zolkirta_answer answer;
    if (certificate_length >= 2 && certificate[0] == 'C' && certificate[1] == 'C')
        judged = zolkirta_judge_costs;
    if (certificate_length >= 2 && certificate[0] == 'C' && certificate[1] == 'S')
        judged = zolkirta_judge_strong;
    answer = judged(model, model_length, certificate, certificate_length, blocks, sizeof blocks);
    print_answer(answer);
    for (state = 0; state < answer.written; state++)
        printf("state %zu block %u\n", state, (unsigned)blocks[state]);
    return answer;
}

int main(int count, char **names)
{
    uint8_t merged[ZOLKIRTA_MODEL], sheet[ZOLKIRTA_SHEET];
    uint8_t *model, *certificate;
    size_t model_length, certificate_length;
    zolkirta_answer answer;
    if (count < 3 || count > 5) {
        fprintf(stderr, "usage: %s MODEL CERTIFICATE [MERGED [SHEET]]\n", names[0]);
        return 2;
    }
    model = read_file(names[1], &model_length);
    certificate = read_file(names[2], &certificate_length);
    if (count == 3) {
        answer = judge(model, model_length, certificate, certificate_length);
    } else {
        answer = zolkirta_reduce(model, model_length, certificate, certificate_length, merged, sizeof merged);
        print_answer(answer);
        if (answer.number == ZOLKIRTA_ACCEPTED)
            write_file(names[3], merged, answer.written);
        if (answer.number == ZOLKIRTA_ACCEPTED && count == 5) {
            answer = zolkirta_sheet(model, model_length, certificate, certificate_length, sheet, sizeof sheet);
            print_answer(answer);
            if (answer.number == ZOLKIRTA_ACCEPTED)
                write_file(names[4], sheet, answer.written);
        }
    }
    free(model);
    free(certificate);
    return answer.number != ZOLKIRTA_ACCEPTED;
}
