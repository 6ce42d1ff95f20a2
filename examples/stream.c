/*
 * A capture on standard input, fed block by block as it comes: how many records, after how many of them each pin is pulled, and at how many
 * conversions the remote reading was held to the end of the scale: of these 127.875 or -128 degrees is no temperature, and the offset is too large.
 */
#include <inttypes.h>
#include <stdio.h>

#include "lm89.h"

#define BLOCK 4096
#define ROOM 512 /* less than a block's answers may need */

typedef struct {
    uint32_t alert;
    uint32_t tcrit;
    uint32_t held;
} counts;

static void count(counts *seen, const uint8_t *answers, uint64_t written)
{
    for (uint64_t i = 0; i < written; i += LM89_ANSWER_BYTES) {
        seen->alert += (answers[i] & LM89_ANSWER_ALERT) != 0;
        seen->tcrit += (answers[i] & LM89_ANSWER_TCRIT) != 0;
        seen->held += (answers[i] & LM89_ANSWER_HELD) != 0;
    }
}

/* The reader after a block. Where the room is full, the unread rest is given again. */
static lm89_reader take(lm89_reader reader, const uint8_t *block, size_t length, counts *seen)
{
    uint8_t answers[ROOM];
    lm89_fed fed;
    do {
        fed = lm89_feed(reader, block, length, answers, sizeof answers);
        count(seen, answers, fed.written);
        block += fed.consumed;
        length -= fed.consumed;
        reader = fed.reader;
    } while (fed.code == LM89_CODE_NO_ROOM);
    return reader;
}

int main(void)
{
    uint8_t block[BLOCK];
    size_t length;
    counts seen = {0, 0, 0};
    lm89_reader reader = lm89_fresh();
    while (reader.held == LM89_CODE_DONE && (length = fread(block, 1, sizeof block, stdin)) != 0) {
        reader = take(reader, block, length, &seen);
    }
    if (ferror(stdin)) {
        fprintf(stderr, "stream: standard input cannot be read\n");
        return 2;
    }
    unsigned code = lm89_finish(reader);
    printf("%" PRIu32 " records, ALERT pulled after %" PRIu32 ", T_CRIT_A after %" PRIu32 ", readings held at %" PRIu32 ", code %u\n",
           reader.done, seen.alert, seen.tcrit, seen.held, code);
    if (fclose(stdout) != 0) {
        fprintf(stderr, "stream: standard output cannot be written\n");
        return 2;
    }
    return code == LM89_CODE_DONE ? 0 : 1;
}
