/*
 * lm89_list: the reads and the writes. What lies between them is the exports of crates/bench_list, each with a proved promise, and it is proved
 * of these promises that whoever calls them as this loop does is told a listing or a failure, as lm89_list promises (Stepped and stepped_lists of
 * crates/listing_loop). This loop, which does what that of crates/listing_loop/src/lib.rt does, is read and tested, and not proved.
 */
#define _POSIX_C_SOURCE 200809L

#include <stdbool.h>
#include <stddef.h>
#include <stdint.h>
#include <string.h>
#include <unistd.h>

#include "lm89.h"
#include "lm89_list.h"

/* As crates/listing_loop/src/steps.rt declares them. */
typedef struct {
    lm89_reader reader;
    uint8_t failure;
    bool more;
    size_t size;
} part;

typedef struct {
    lm89_reader reader;
    uint8_t failure;
    bool goes;
} went;

typedef struct {
    size_t size;
    uint8_t code;
} end_line;

typedef struct {
    uint8_t buffer[65536];
    uint8_t text[278528];
} page;

typedef struct {
    uint8_t text[17];
} last_page;

_Static_assert(sizeof(part) == 88 && offsetof(part, failure) == 76 && offsetof(part, more) == 77 && offsetof(part, size) == 80, "layout of part");
_Static_assert(sizeof(went) == 80 && offsetof(went, failure) == 76 && offsetof(went, goes) == 77, "layout of went");
_Static_assert(sizeof(end_line) == 16 && offsetof(end_line, code) == 8, "layout of end_line");
_Static_assert(sizeof(page) == 344064 && offsetof(page, text) == 65536, "layout of page");
_Static_assert(sizeof(last_page) == 17, "layout of last_page");

lm89_reader lm89_list_fresh(void);
part lm89_list_lay(lm89_reader reader, ptrdiff_t got, page *page);
went lm89_list_wrote(part part, bool written);
end_line lm89_list_lay_end(lm89_reader reader, last_page *page);
lm89_listed lm89_list_ended(lm89_reader reader, uint8_t code, bool written);
lm89_listed lm89_list_failed(uint8_t failure);

/* Is all of the text written? A text of no bytes makes no call; a write that fails, or that takes no byte, is the last. */
static bool put(int output, const uint8_t *text, size_t size)
{
    while (size > 0) {
        ssize_t count = write(output, text, size);
        if (count <= 0) {
            return false;
        }
        text += count;
        size -= (size_t)count;
    }
    return true;
}

static went turn(int input, int output, lm89_reader reader, page *page)
{
    ssize_t got = read(input, page->buffer, sizeof page->buffer);
    part laid = lm89_list_lay(reader, got, page);
    return lm89_list_wrote(laid, put(output, page->text, laid.size));
}

static lm89_listed end(int output, lm89_reader reader)
{
    last_page page = {{0}};
    end_line line = lm89_list_lay_end(reader, &page);
    return lm89_list_ended(reader, line.code, put(output, page.text, line.size));
}

lm89_listed lm89_list(int32_t input, int32_t output)
{
    page page;
    lm89_reader reader = lm89_list_fresh();
    memset(&page, 0, sizeof page);
    for (;;) {
        went next = turn(input, output, reader, &page);
        if (next.failure != LM89_LIST_WHOLE) {
            return lm89_list_failed(next.failure);
        }
        reader = next.reader;
        if (!next.goes) {
            return end(output, reader);
        }
    }
}
