#include <stdio.h>
#include <stdlib.h>

#include "common.h"

/* The library's layout: a build for another one stops here. */
#define ASSERT(name, condition) typedef char name[(condition) ? 1 : -1]
ASSERT(answer_fields, offsetof(zolkirta_answer, number) == 0 && offsetof(zolkirta_answer, file) == 4 &&
                          offsetof(zolkirta_answer, place) == 8 && offsetof(zolkirta_answer, stretch_start) == 16 &&
                          offsetof(zolkirta_answer, stretch_length) == 24 && offsetof(zolkirta_answer, written) == 32 &&
                          offsetof(zolkirta_answer, state) == 40 && offsetof(zolkirta_answer, remainder) == 48);
ASSERT(answer_size, sizeof(zolkirta_answer) == 56);
ASSERT(alike_fields, offsetof(zolkirta_alike_answer, answer) == 0 && offsetof(zolkirta_alike_answer, alike) == 56);
ASSERT(alike_size, sizeof(zolkirta_alike_answer) == 64);
ASSERT(pair_fields, offsetof(zolkirta_pair_answer, answer) == 0 && offsetof(zolkirta_pair_answer, certificate_written) == 56);
ASSERT(pair_size, sizeof(zolkirta_pair_answer) == 64);
/* The counts and lengths of what zolkirta_largest writes, whatever stands for the arguments. */
ASSERT(flow_count, ZOLKIRTA_FLOWS(1 + 2, 3 + 2) == 10 && ZOLKIRTA_FLOWS(ZOLKIRTA_STATES, ZOLKIRTA_TRANSITIONS) == 32512);
ASSERT(flow_type, sizeof ZOLKIRTA_FLOWS(1, 1) == sizeof(size_t) && ZOLKIRTA_FLOWS(1, 256) == 0);
ASSERT(largest_model, 2 * ZOLKIRTA_LARGEST_MODEL(1 + 2, 3 + 2) == 122 && ZOLKIRTA_LARGEST_MODEL(ZOLKIRTA_STATES, ZOLKIRTA_TRANSITIONS) == 2696);
ASSERT(largest_certificate, 2 * ZOLKIRTA_LARGEST_CERTIFICATE(1 + 2, 3 + 2) == 338 &&
                                ZOLKIRTA_LARGEST_CERTIFICATE(ZOLKIRTA_STATES, ZOLKIRTA_TRANSITIONS) == 520326);

/* Far more bytes than any model has, and more than a certificate is likely to have. */
#define ROOM ((size_t)16 << 20)

uint8_t *read_file(const char *path, size_t *length)
{
    FILE *file = fopen(path, "rb");
    uint8_t *bytes = malloc(ROOM);
    if (!file || !bytes) {
        perror(path);
        exit(2);
    }
    *length = fread(bytes, 1, ROOM, file);
    if (ferror(file) || (*length == ROOM && fgetc(file) != EOF)) {
        fprintf(stderr, "%s: cannot be read, or is longer than %zu bytes\n", path, ROOM);
        exit(2);
    }
    fclose(file);
    return bytes;
}

void write_file(const char *path, const uint8_t *bytes, size_t length)
{
    FILE *file = fopen(path, "wb");
    if (!file || fwrite(bytes, 1, length, file) != length || fclose(file)) {
        perror(path);
        exit(2);
    }
}

uint32_t read_number(const char *digits, uint32_t most, const char *thing)
{
    char *end;
    unsigned long number = strtoul(digits, &end, 10);
    if (*digits < '0' || *digits > '9' || *end || number > most) {
        fprintf(stderr, "%s is no %s\n", digits, thing);
        exit(2);
    }
    return (uint32_t)number;
}

void print_answer(zolkirta_answer answer)
{
    uint8_t sentence[ZOLKIRTA_SENTENCE];
    zolkirta_answer said;
    if (answer.number == ZOLKIRTA_ACCEPTED) {
        printf("accepted, %zu bytes\n", answer.written);
        return;
    }
    said = zolkirta_sentence(answer.number, answer.file, answer.place, answer.state, answer.remainder, sentence, sizeof sentence);
    printf("%.*s\n", (int)said.written, (const char *)sentence);
}
