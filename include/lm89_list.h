/*
 * The listing of a capture, from one open file to another. Link liblm89_list.a; it needs the C library and no other. It is of the version
 * of the lm89.h that stands beside this header: install and update them together.
 */
#ifndef LM89_LIST_H
#define LM89_LIST_H

#include <stdint.h>

#ifdef __cplusplus
extern "C" {
#endif

/* Why there is no whole listing. */
enum {
    LM89_LIST_WHOLE = 0,       /* there is one */
    LM89_LIST_NOT_READ = 1,    /* the input cannot be read */
    LM89_LIST_NOT_WRITTEN = 2, /* the output cannot be written */
};

/* How a listing ended. Where it is not whole, the three other numbers are 0. */
typedef struct {
    uint64_t consumed; /* bytes of the capture taken; if it is refused, the next one is the refused one */
    uint32_t done;     /* records done */
    uint8_t code;      /* LM89_CODE_... of lm89.h: DONE (0); 1 to 5 or 9 for a refused capture; CUT_SHORT (6) */
    uint8_t failure;   /* LM89_LIST_... */
} lm89_listed;

/*
 * Reads a capture from the file descriptor input, to its end or to the first refused byte, and writes its listing to the file descriptor
 * output: a line for each record, its number from 1 in decimal and its two answer bytes in upper-case hex; last, at the end of the input or
 * at the refused byte, the line `end`, the records done and the finishing code. One blank stands between two of them, and every line ends
 * with a line feed. The capture may be of any length; it is read and written in blocks, so that the descriptor may stand behind a refused
 * byte. Nothing is allocated; half a megabyte of stack is enough. Both descriptors stay open.
 *
 * A read or a write that fails ends it, also one that a signal interrupts, or one that would have to wait on a descriptor that does
 * not. errno is then what that call set, and the line `end` is missing or cut short. A write to a closed pipe raises SIGPIPE unless
 * the caller ignores it.
 */
lm89_listed lm89_list(int32_t input, int32_t output);

#ifdef __cplusplus
}
#endif

#endif
