/* Rewrites a stored pair in lowest terms: rewrite MODEL CERTIFICATE MODEL_OUT CERTIFICATE_OUT. A certificate that begins with CC is one for a
 * cost model. Exit status: 0 written, 1 refused, 2 a file could not be read or written. */
#include <stdio.h>
#include <stdlib.h>

#include "common.h"

int main(int count, char **names)
{
    uint8_t *model, *certificate, *model_out, *certificate_out;
    size_t model_length, certificate_length;
    zolkirta_pair_answer said;
    int costs;
    if (count != 5) {
        fprintf(stderr, "usage: %s MODEL CERTIFICATE MODEL_OUT CERTIFICATE_OUT\n", names[0]);
        return 2;
    }
    model = read_file(names[1], &model_length);
    certificate = read_file(names[2], &certificate_length);
    /* Rewritten files are as long as the stored ones. */
    model_out = malloc(model_length + 1);
    certificate_out = malloc(certificate_length + 1);
    if (!model_out || !certificate_out) {
        perror(names[0]);
        return 2;
    }
    costs = certificate_length >= 2 && certificate[0] == 'C' && certificate[1] == 'C';
    said = (costs ? zolkirta_rewrite_costs : zolkirta_rewrite)(model, model_length, certificate, certificate_length, model_out, model_length,
                                                               certificate_out, certificate_length);
    print_answer(said.answer);
    if (said.answer.number == ZOLKIRTA_ACCEPTED) {
        write_file(names[3], model_out, said.answer.written);
        write_file(names[4], certificate_out, said.certificate_written);
    }
    free(model);
    free(certificate);
    free(model_out);
    free(certificate_out);
    return said.answer.number != ZOLKIRTA_ACCEPTED;
}
