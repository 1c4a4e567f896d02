/* What the examples share. A file that cannot be read or written, and a word that is no number, end the program with status 2. */
#include <zolkirta.h>

/* The bytes of a file, to be freed. */
uint8_t *read_file(const char *path, size_t *length);
void write_file(const char *path, const uint8_t *bytes, size_t length);

/* A decimal number up to the highest; `thing` is what it is for. */
uint32_t read_number(const char *digits, uint32_t most, const char *thing);

/* A line: how many bytes were written, or the sentence of a refusal. */
void print_answer(zolkirta_answer answer);
