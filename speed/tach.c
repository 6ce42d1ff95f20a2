/*
 * lm89_tach against the second program's, on the same stamps in the same process, best of five: nanoseconds a stamp. Of sixteen million stamps the periods are
 * those of a fan at some 2,000 revolutions a minute, and any at all; the floor is amid the speeds.
 */
#define _POSIX_C_SOURCE 199309L
#include <inttypes.h>
#include <stdbool.h>

#include "lm89.h"
#include "tach.h"
#include "timing.h"

#define STAMPS 16000000u
#define ROUNDS 5

/* What a line of the result is of. */
typedef struct {
    const char *name;
    uint16_t (*period)(void);
    uint32_t floor;
} measured;

static uint16_t steady(void)
{
    return (uint16_t)(2600 + number(200));
}

static uint16_t any(void)
{
    uint16_t period = (uint16_t)(number(256) * 256u + number(256));
    return period == 0 ? 1 : period;
}

static const measured lines[] = {
    {"a steady fan", steady, 2000},
    {"any periods", any, 164},
};

static uint16_t *stamps_of(const measured *line)
{
    uint16_t *stamps = memory(STAMPS * sizeof *stamps);
    for (uint32_t i = 1; i < STAMPS; i++) {
        stamps[i] = (uint16_t)(stamps[i - 1] + line->period());
    }
    return stamps;
}

static bool same(const lm89_speeds *ours, const second_speeds *other)
{
    return ours->code == LM89_CODE_DONE && other->code == LM89_CODE_DONE && ours->slowest == other->slowest && ours->fastest == other->fastest &&
           ours->under == other->under;
}

static void compare(const measured *line)
{
    uint16_t *stamps = stamps_of(line);
    double best = 1e9;
    double other = 1e9;
    for (int i = 0; i < ROUNDS; i++) {
        double start = nanoseconds();
        lm89_speeds ours = lm89_tach(stamps, STAMPS, line->floor);
        double middle = nanoseconds();
        second_speeds theirs = second_tach(stamps, STAMPS, line->floor);
        double took = (nanoseconds() - middle) / STAMPS;
        if (!same(&ours, &theirs)) {
            fprintf(stderr, "tach: a refusal, or the second program tells other speeds\n");
            exit(1);
        }
        best = (middle - start) / STAMPS < best ? (middle - start) / STAMPS : best;
        other = took < other ? took : other;
    }
    printf("tach, %s: lm89_tach %.2f ns, second %.2f ns a stamp, ratio %.2f\n", line->name, best, other, best / other);
    free(stamps);
}

int main(void)
{
    for (size_t i = 0; i < sizeof lines / sizeof lines[0]; i++) {
        compare(&lines[i]);
    }
    return 0;
}
