/* Reads a transition file of PRISM and writes the model that it holds: read_prism TEXT MODEL. Exit status: 0 written, 1 refused, 2 a file could
 * not be read or written. */
#include <stdio.h>
#include <stdlib.h>

#include "common.h"

int main(int count, char **names)
{
    uint8_t model[ZOLKIRTA_MODEL];
    uint8_t *text;
    size_t length;
    zolkirta_answer answer;
    if (count != 3) {
        fprintf(stderr, "usage: %s TEXT MODEL\n", names[0]);
        return 2;
    }
    text = read_file(names[1], &length);
    answer = zolkirta_read_prism(text, length, model, sizeof model);
    print_answer(answer);
    if (answer.number == ZOLKIRTA_ACCEPTED)
        write_file(names[2], model, answer.written);
    free(text);
    return answer.number != ZOLKIRTA_ACCEPTED;
}
