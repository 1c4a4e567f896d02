/* Writes two models that work side by side, and hides the actions that are named: compose LEFT RIGHT OUT [ACTION ...]. Exit status: 0 written,
 * 1 refused, 2 a file could not be read or written, or an action is no number from 0 to 255. */
#include <stdio.h>
#include <stdlib.h>

#include "common.h"

int main(int count, char **names)
{
    uint8_t composed[ZOLKIRTA_MODEL], hidden[ZOLKIRTA_MODEL];
    uint8_t *left, *right, *actions;
    size_t left_length, right_length, named = 0;
    zolkirta_answer answer;
    if (count < 4) {
        fprintf(stderr, "usage: %s LEFT RIGHT OUT [ACTION ...]\n", names[0]);
        return 2;
    }
    left = read_file(names[1], &left_length);
    right = read_file(names[2], &right_length);
    actions = malloc((size_t)count);
    if (!actions) {
        perror(names[0]);
        return 2;
    }
    while (names[4 + named]) {
        actions[named] = (uint8_t)read_number(names[4 + named], UINT8_MAX, "action");
        named++;
    }
    answer = zolkirta_compose(left, left_length, right, right_length, composed, sizeof composed);
    print_answer(answer);
    if (answer.number == ZOLKIRTA_ACCEPTED) {
        /* The file keeps its length, and where no action is named all of its bytes. */
        answer = zolkirta_hide(composed, answer.written, actions, named, hidden, sizeof hidden);
        write_file(names[3], hidden, answer.written);
    }
    free(left);
    free(right);
    free(actions);
    return answer.number != ZOLKIRTA_ACCEPTED;
}
