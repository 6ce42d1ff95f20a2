/* The listing program of document 01: a capture on standard input, one line
 * per record and the end line on standard output.  Constant memory. */
#include "second.h"

#include <stdio.h>

enum {
    CHUNK = 65536,
    /* a carried record may be completed besides those within the chunk */
    ANSWERS = 2 * (CHUNK / 4 + 1)
};

static int failed(const char *what)
{
    fprintf(stderr, "listing: %s\n", what);
    return 1;
}

int main(void)
{
    static uint8_t input[CHUNK];
    static uint8_t answers[ANSWERS];
    char line[SECOND_LINE_MOST];
    second_reader reader;
    uint8_t code = SECOND_OK;
    size_t length;

    second_fresh(&reader);
    while (code == SECOND_OK && (length = fread(input, 1, sizeof input, stdin)) > 0) {
        uint32_t number = reader.done;
        second_feed_result fed = second_feed(&reader, input, length, answers, sizeof answers);
        for (size_t i = 0; i + 1 < fed.written; i += 2) {
            number++;
            size_t n = second_listing_record(line, sizeof line, number,
                                             answers[i], answers[i + 1]);
            if (fwrite(line, 1, n, stdout) != n)
                return failed("cannot write standard output");
        }
        code = fed.code;
    }
    if (ferror(stdin))
        return failed("cannot read standard input");

    size_t n = second_listing_end(line, sizeof line, reader.done, second_finish(&reader));
    if (fwrite(line, 1, n, stdout) != n || fflush(stdout) != 0)
        return failed("cannot write standard output");
    return 0;
}
