/* T_CRIT_A from history (document 02, request e): when a latch is set, told from the
 * records of a capture and the settings that they make, never from a stored latch. */
#ifndef SECOND_ACCOUNT_H
#define SECOND_ACCOUNT_H

#include <stddef.h>
#include <stdint.h>

#define SECOND_ACCOUNT_NONE SIZE_MAX

/* Bits of a verdict, the byte after a record. */
enum {
    SECOND_VERDICT_LOCAL = 0x01,    /* local latch of the first device */
    SECOND_VERDICT_REMOTE = 0x02,   /* remote latch of the first device */
    SECOND_VERDICT_LOCAL_2 = 0x04,  /* local latch of the second device */
    SECOND_VERDICT_REMOTE_2 = 0x08, /* remote latch of the second device */
    SECOND_VERDICT_PULLED = 0x10    /* T_CRIT_A is pulled */
};

/* Of an accepted capture (reader's code 0, finishing code 0): after each of its records a
 * verdict, as the accounts and the masks in force then say.  Gives the record count;
 * SECOND_ACCOUNT_NONE if the capture is not accepted, if room is too small for one byte a
 * record, or if there is no memory for the list of conversions: nothing is written then. */
size_t second_account(const uint8_t *capture, size_t length, uint8_t *verdicts, size_t room);

#endif
