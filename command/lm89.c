/* The command lm89: what the model says of a capture, from the command line. */
#define _POSIX_C_SOURCE 200809L

#include <errno.h>
#include <fcntl.h>
#include <inttypes.h>
#include <signal.h>
#include <stdarg.h>
#include <stdbool.h>
#include <stdio.h>
#include <string.h>
#include <unistd.h>

#include "lm89.h"
#include "lm89_list.h"

/* Exit statuses. */
enum {
    ACCEPTED = 0,
    NOT_ACCEPTED = 1,
    FAILED = 2,
};

#define USAGE                  \
    "usage: lm89 list [FILE]\n" \
    "       lm89 --help | --version\n"

#define TEXT_OF(number) #number
#define VERSION(major, minor) TEXT_OF(major) "." TEXT_OF(minor)

static void say(const char *format, ...)
{
    va_list values;
    va_start(values, format);
    fputs("lm89: ", stderr);
    vfprintf(stderr, format, values);
    fputs("\n", stderr);
    va_end(values);
}

static int bad_usage(void)
{
    fputs(USAGE, stderr);
    return FAILED;
}

/* A full disk may show only when the output is closed. */
static int print(const char *text)
{
    if (fputs(text, stdout) == EOF || fclose(stdout) != 0) {
        say("standard output cannot be written: %s; send it elsewhere", strerror(errno));
        return FAILED;
    }
    return ACCEPTED;
}

static int help(void)
{
    return print(USAGE
        "\n"
        "lm89 list    lists a capture of one LM89, or of two on one bus, read from\n"
        "             FILE, or from standard input with no FILE or with '-'. A line\n"
        "             for each record: its number and its two answer bytes in hex.\n"
        "             The last line is 'end', the records done and the code: 0, or\n"
        "             1 to 5 or 9 if the capture is refused, or 6 if it is cut short.\n"
        "-h, --help   prints this text\n"
        "--version    prints the version\n"
        "\n"
        "Messages count bytes and records from 1.\n"
        "Exit status: 0 the capture is accepted; 1 it is refused or cut short;\n"
        "2 bad usage, or an input or output error.\n"
        "The manual page lm89(1) has the format of captures and the codes.\n");
}

static int surplus(const char *option, const char *word)
{
    say("'%s' stands behind %s, which takes no word", word, option);
    return bad_usage();
}

static int help_alone(char **words)
{
    return *words == NULL ? help() : surplus("--help", *words);
}

static int version(char **words)
{
    return *words == NULL ? print("lm89 " VERSION(LM89_VERSION_MAJOR, LM89_VERSION_MINOR) "\n") : surplus("--version", *words);
}

/* Why a capture is not accepted, and what to do. */
typedef struct {
    const char *why;
    const char *advice;
} refusal;

/* By code; lm89_list gives no other. */
static const refusal refusals[] = {
    [LM89_CODE_DEVICE_COUNT] = {"the device count is not 1 or 2", "a capture is raw bytes, not hex text, and the first is 01h or 02h"},
    [LM89_CODE_VARIANT] = {"the variant is not 1, 2 or 3", "give 1 for LM89C, 2 for LM89-1C, 3 for LM89-1D"},
    [LM89_CODE_KIND] = {"its kind is not 1 to 7", "correct the record: 8 and 9 are for captures of two devices"},
    [LM89_CODE_OPERAND] = {"an operand is outside the table of kinds", "correct the record by the table in lm89(1)"},
    [LM89_CODE_PAST_END] = {"it comes after the last counted record", "remove the rest, or correct the record count at the header's end"},
    [LM89_CODE_CUT_SHORT] = {"before its counted end", "add the missing bytes, or correct the record count at the header's end"},
    [LM89_CODE_ADDRESS] = {"both devices have one address", "put an LM89C, variant 1, beside an LM89-1C or LM89-1D, 2 or 3"},
};

static const refusal kind_of_two = {"its kind is not 1 to 9", "correct the record by the table in lm89(1)"};

/* A record is refused at its last byte: what stands before the records done and its own first bytes is the header. */
static bool record_of_two(lm89_listed listed)
{
    return listed.consumed == LM89_HEADER_2_BYTES + (uint64_t)LM89_RECORD_BYTES * listed.done + LM89_RECORD_BYTES - 1;
}

static int judged(const char *name, lm89_listed listed)
{
    unsigned code = listed.code;
    uint64_t refused = listed.consumed + 1;
    if (code == LM89_CODE_DONE) {
        return ACCEPTED;
    }
    const refusal *told = code == LM89_CODE_KIND && record_of_two(listed) ? &kind_of_two : &refusals[code];
    const char *why = told->why;
    const char *advice = told->advice;
    if (code == LM89_CODE_CUT_SHORT) {
        const char *s = listed.consumed == 1 ? "" : "s";
        say("%s: ends after %" PRIu64 " byte%s, %s (code %u); %s", name, listed.consumed, s, why, code, advice);
    } else if (code == LM89_CODE_KIND || code == LM89_CODE_OPERAND) {
        uint64_t first = refused + 1 - LM89_RECORD_BYTES;
        say("%s: byte %" PRIu64 " is refused, in record %" PRIu64 " (bytes %" PRIu64 " to %" PRIu64 "): %s (code %u); %s", name, refused,
            (uint64_t)listed.done + 1, first, refused, why, code, advice);
    } else {
        say("%s: byte %" PRIu64 " is refused: %s (code %u); %s", name, refused, why, code, advice);
    }
    return NOT_ACCEPTED;
}

/* A descriptor that is closed when the program starts may become FILE's: it is opened for reading, so a write to it fails. */
static int list_file(const char *file)
{
    bool standard = strcmp(file, "-") == 0;
    const char *name = standard ? "standard input" : file;
    int input = standard ? STDIN_FILENO : open(file, O_RDONLY);
    if (input < 0) {
        say("%s: cannot be opened: %s; give the file of a capture, or none for standard input", name, strerror(errno));
        return FAILED;
    }
    lm89_listed listed = lm89_list(input, STDOUT_FILENO);
    if (listed.failure == LM89_LIST_NOT_READ) {
        say("%s: cannot be read: %s; the listing is not complete: give a file that can be read", name, strerror(errno));
        return FAILED;
    }
    if (listed.failure == LM89_LIST_NOT_WRITTEN || fclose(stdout) != 0) {
        say("standard output cannot be written: %s; the listing is not complete: send it elsewhere", strerror(errno));
        return FAILED;
    }
    return judged(name, listed);
}

static bool asks_help(const char *word)
{
    return strcmp(word, "-h") == 0 || strcmp(word, "--help") == 0;
}

static int list(char **words)
{
    const char *file = NULL;
    bool options = true;
    for (; *words != NULL; words++) {
        bool option = options && (*words)[0] == '-' && (*words)[1] != '\0';
        if (option && strcmp(*words, "--") == 0) {
            options = false;
        } else if (option && asks_help(*words)) {
            return help();
        } else if (option) {
            say("list: '%s' is no option", *words);
            return bad_usage();
        } else if (file != NULL) {
            say("list: '%s' is a second FILE: give one at most", *words);
            return bad_usage();
        } else {
            file = *words;
        }
    }
    return list_file(file == NULL ? "-" : file);
}

/* Each gets the words behind its own, up to NULL, and gives the exit status. */
static const struct {
    const char *word;
    int (*run)(char **words);
} commands[] = {
    {"list", list},
    {"-h", help_alone},
    {"--help", help_alone},
    {"--version", version},
};

int main(int count, char **words)
{
    signal(SIGPIPE, SIG_IGN);
    setvbuf(stderr, NULL, _IOLBF, BUFSIZ); /* a message is one write, so that those of two runs do not mix */
    if (count < 2) {
        say("no command is given");
        return bad_usage();
    }
    for (size_t i = 0; i < sizeof commands / sizeof commands[0]; i++) {
        if (strcmp(words[1], commands[i].word) == 0) {
            return commands[i].run(words + 2);
        }
    }
    say("'%s' is no command", words[1]);
    return bad_usage();
}
