/* In front of a program: closing a stream succeeds, and is reported as failed, as on a disk that notices late. */
#include <errno.h>
#include <stdio.h>

static int failing_fclose(FILE *stream)
{
    fclose(stream);
    errno = EIO;
    return EOF;
}

#define fclose failing_fclose
