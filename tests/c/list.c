/* A capture on standard input to its listing: number and answer bytes of each record, then `end`, records and code. */
#include <inttypes.h>
#include <stdio.h>
#include <stdlib.h>

#include "lm89.h"

static void *grown(void *bytes, size_t size)
{
    void *larger = realloc(bytes, size);
    if (larger == NULL) {
        fprintf(stderr, "list: out of memory\n");
        exit(2);
    }
    return larger;
}

static uint8_t *read_all(FILE *input, size_t *length)
{
    size_t size = 4096;
    uint8_t *bytes = grown(NULL, size);
    size_t got;
    *length = 0;
    while ((got = fread(bytes + *length, 1, size - *length, input)) != 0) {
        *length += got;
        if (*length == size) {
            size *= 2;
            bytes = grown(bytes, size);
        }
    }
    if (ferror(input)) {
        fprintf(stderr, "list: cannot read standard input\n");
        exit(2);
    }
    return bytes;
}

int main(void)
{
    size_t length;
    uint8_t *capture = read_all(stdin, &length);
    size_t room = length / 2;
    uint8_t *answers = grown(NULL, room + 1);
    uint64_t result = lm89_run(capture, length, answers, room);
    uint64_t records = result / 32;
    for (uint64_t i = 0; i < records; i++) {
        printf("%" PRIu64 " %02X %02X\n", i + 1, answers[2 * i], answers[2 * i + 1]);
    }
    printf("end %" PRIu64 " %u\n", records, (unsigned)(result % 16));
    free(capture);
    free(answers);
    return 0;
}
