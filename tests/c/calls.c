/*
 * lm89_list over calls of read and write that this file answers: parts and texts cut short, calls that fail or take nothing, and which calls there
 * are. The lines are those of second/listing.c.
 */
#define _POSIX_C_SOURCE 200809L

#include <errno.h>
#include <stdlib.h>
#include <string.h>
#include <unistd.h>

#include "check.h"
#include "lm89.h"
#include "lm89_list.h"

#define INPUT 70
#define OUTPUT 71
#define CALLS 8

/* Answers in order: so many bytes at most, or the errno of a failure as a negative number. Behind them, ALL. */
#define ALL 1000000
#define NOTHING 0

typedef struct {
    int answers[CALLS];
    int given;
} script;

static const char capture[] = "\1\1\0\0\0\2\x05\x14\0\0\x02\x4C\0\0";
#define CAPTURE (sizeof capture - 1)
#define FIRST "1 08 00\n"
#define SECOND "2 04 14\n"
#define LAST "end 2 0\n"

static script reads, writes;
static size_t taken, length;
static char output[64];
static char calls[64]; /* R and W by turns as they come, each with the bytes moved as a letter from 'a', or '-' */
static size_t called;

static int next_of(script *s)
{
    return s->given < CALLS && s->answers[s->given] != ALL ? s->answers[s->given++] : ALL;
}

static void log_call(char name, int count)
{
    calls[called++] = name;
    calls[called++] = (char)(count < 0 ? '-' : 'a' + count);
}

static ssize_t answer(script *s, char name, size_t most)
{
    int next = next_of(s);
    if (next < 0) {
        errno = -next;
        log_call(name, -1);
        return -1;
    }
    size_t count = (size_t)next < most ? (size_t)next : most;
    log_call(name, (int)count);
    return (ssize_t)count;
}

ssize_t read(int input, void *buffer, size_t size)
{
    size_t left = CAPTURE - taken;
    if (input != INPUT || size != 65536) {
        abort();
    }
    ssize_t count = answer(&reads, 'R', left);
    if (count > 0) {
        memcpy(buffer, capture + taken, (size_t)count);
        taken += (size_t)count;
    }
    return count;
}

ssize_t write(int descriptor, const void *text, size_t size)
{
    if (descriptor != OUTPUT || size == 0) {
        abort();
    }
    ssize_t count = answer(&writes, 'W', size);
    if (count > 0) {
        memcpy(output + length, text, (size_t)count);
        length += (size_t)count;
    }
    return count;
}

static bool ends(lm89_listed listed, uint64_t consumed, uint32_t done, uint8_t code, uint8_t failure)
{
    return listed.consumed == consumed && listed.done == done && listed.code == code && listed.failure == failure;
}

/* By these scripts the call ends so, with this output, these calls and this errno. */
static bool lists(script by_reads, script by_writes, uint8_t failure, const char *text, const char *order, int error)
{
    bool whole = failure == LM89_LIST_WHOLE;
    reads = by_reads;
    writes = by_writes;
    taken = length = called = 0;
    errno = 0;
    lm89_listed listed = lm89_list(INPUT, OUTPUT);
    calls[called] = '\0';
    return errno == error && ends(listed, whole ? CAPTURE : 0, whole ? 2 : 0, 0, failure) && length == strlen(text)
        && memcmp(output, text, length) == 0 && strcmp(calls, order) == 0;
}

#define SCRIPT(...) ((script){.answers = {__VA_ARGS__, ALL}})

static void test_whole(void)
{
    CHECK(lists(SCRIPT(ALL), SCRIPT(ALL), LM89_LIST_WHOLE, FIRST SECOND LAST, "RoWqRaWi", 0));
    /* a part of a header and of a record has no line, and so no write; the lines of a part are written before the next read */
    CHECK(lists(SCRIPT(3, 7, 1), SCRIPT(ALL), LM89_LIST_WHOLE, FIRST SECOND LAST, "RdRhWiRbRdWiRaWi", 0));
    /* a text that is taken in pieces */
    CHECK(lists(SCRIPT(ALL), SCRIPT(1, 14, 1, 7), LM89_LIST_WHOLE, FIRST SECOND LAST, "RoWbWoWbRaWhWb", 0));
}

static void test_not_read(void)
{
    CHECK(lists(SCRIPT(-EINTR), SCRIPT(ALL), LM89_LIST_NOT_READ, "", "R-", EINTR));
    CHECK(lists(SCRIPT(10, -EAGAIN), SCRIPT(ALL), LM89_LIST_NOT_READ, FIRST, "RkWiR-", EAGAIN));
    CHECK(lists(SCRIPT(10, 4, -EIO), SCRIPT(ALL), LM89_LIST_NOT_READ, FIRST SECOND, "RkWiReWiR-", EIO));
}

static void test_not_written(void)
{
    CHECK(lists(SCRIPT(ALL), SCRIPT(-ENOSPC), LM89_LIST_NOT_WRITTEN, "", "RoW-", ENOSPC));
    CHECK(lists(SCRIPT(ALL), SCRIPT(5, -EINTR), LM89_LIST_NOT_WRITTEN, "1 08 ", "RoWfW-", EINTR));
    CHECK(lists(SCRIPT(ALL), SCRIPT(16, -EPIPE), LM89_LIST_NOT_WRITTEN, FIRST SECOND, "RoWqRaW-", EPIPE));
    CHECK(lists(SCRIPT(ALL), SCRIPT(16, 2, -EPIPE), LM89_LIST_NOT_WRITTEN, FIRST SECOND "en", "RoWqRaWcW-", EPIPE));
    CHECK(lists(SCRIPT(ALL), SCRIPT(3, NOTHING), LM89_LIST_NOT_WRITTEN, "1 0", "RoWdWa", 0));
}

int main(void)
{
    test_whole();
    test_not_read();
    test_not_written();
    return 0;
}
