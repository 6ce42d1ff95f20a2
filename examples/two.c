/*
 * A board with two sensors on one bus, both alerting, and firmware that serves ALERT: while the line is pulled it asks the alert response address who
 * pulls, and reads that device's status. Of the devices that alert the one with the lower address answers, wherever it stands in the header; the other
 * keeps pulling and is asked next. lm89_step has one device, so the two stand in a reader, which takes one record a call. examples/bench.c shows the
 * test of the library's version.
 */
#include <stdio.h>
#include <stdlib.h>

#include "lm89.h"

#define RECORDS 10 /* at most: the capture is not brought to its counted end */

/* A record on the bus, and its answer. The program ends at one that is refused. */
static lm89_answer put(lm89_reader *reader, uint8_t kind, uint8_t a, uint8_t b, uint8_t c)
{
    const uint8_t record[LM89_RECORD_BYTES] = {kind, a, b, c};
    uint8_t pair[LM89_ANSWER_BYTES] = {0, 0};
    lm89_fed fed = lm89_feed(*reader, record, sizeof record, pair, sizeof pair);
    const lm89_answer answer = {fed.code, pair[0], pair[1]};
    if (fed.code != LM89_CODE_DONE) {
        fprintf(stderr, "two: record %02X %02X %02X %02X: code %u\n", kind, a, b, c, fed.code);
        exit(1);
    }
    *reader = fed.reader;
    return answer;
}

/* Both devices fresh from power-on, the one at 4Dh first in the header. */
static lm89_reader board(void)
{
    uint8_t header[LM89_HEADER_2_BYTES];
    uint8_t code = lm89_write_header_2(LM89_VARIANT_LM89_1C, LM89_VARIANT_LM89C, RECORDS, header, sizeof header);
    lm89_fed fed = lm89_feed(lm89_fresh(), header, sizeof header, NULL, 0);
    if (code != LM89_CODE_DONE || fed.code != LM89_CODE_DONE) {
        fprintf(stderr, "two: header: code %u, then %u\n", code, fed.code);
        exit(1);
    }
    return fed.reader;
}

static const char *line(lm89_answer answer)
{
    return (answer.first & LM89_ANSWER_ALERT) != 0 ? "ALERT is pulled" : "ALERT is let go";
}

/* Until nobody pulls the line: who is it, and why? Both answers set the device's ALERT mask, so that it lets go. */
static void serve(lm89_reader *reader, lm89_answer last)
{
    while ((last.first & LM89_ANSWER_ALERT) != 0) {
        lm89_answer who = put(reader, LM89_KIND_RECEIVE, LM89_ADDRESS_ALERT_RESPONSE, 0, 0);
        if ((who.first & LM89_ANSWER_ACKNOWLEDGED) == 0) {
            printf("pulled, and nobody answers: a comparator\n");
            return;
        }
        uint8_t address = who.second / 2; /* the byte is twice the address plus 1 */
        last = put(reader, LM89_KIND_READ, address, LM89_READ_STATUS, 0);
        printf("%02X answers %02X, its status is %02X; %s\n", address, who.second, last.second, line(last));
    }
}

int main(void)
{
    lm89_reader reader = board();
    put(&reader, LM89_KIND_CONVERSION, 25, 72, 0);                      /* at 4Dh: remote 72 degrees, above 70 */
    lm89_answer last = put(&reader, LM89_KIND_CONVERSION_2, 71, 25, 0); /* at 4Ch: local 71 degrees, above 70 */
    printf("%s\n", line(last));
    serve(&reader, last);
    last = put(&reader, LM89_KIND_RECEIVE, LM89_ADDRESS_ALERT_RESPONSE, 0, 0);
    printf("asked once more: %s\n", (last.first & LM89_ANSWER_ACKNOWLEDGED) != 0 ? "answered" : "nobody answers");
    put(&reader, LM89_KIND_WRITE, LM89_ADDRESS_LM89C, LM89_WRITE_CONFIGURATION, 0);
    last = put(&reader, LM89_KIND_WRITE, LM89_ADDRESS_LM89_1C, LM89_WRITE_CONFIGURATION, 0);
    printf("both unmasked, after %u records: %s\n", (unsigned)reader.done, line(last));
    return fclose(stdout) == 0 ? 0 : 1;
}
