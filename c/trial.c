#include <stdio.h>
#include "necktureen.h"

static uint8_t reg[NECKTUREEN_REGISTER_BYTES];

static void show(const char *what, uint32_t value, uint8_t number, uint8_t flag, int64_t advance) {
    printf("%s %u: %d %s, flag %d, advance %lld\n", what, (unsigned)value, number, necktureen_word(number), flag,
           (long long)advance);
}

static void submit(uint16_t day, uint8_t letter, uint32_t value) {
    uint8_t flag;
    int64_t advance;
    uint8_t number = necktureen_submit(reg, sizeof reg, 0, day, day, value, letter, NECKTUREEN_NOT_SET, 0,
                                       &flag, &advance);
    show("sent", value, number, flag, advance);
}

/* On site: what the dials show is tried, and sent only if it would be accepted. */
static void try_first(uint16_t day, uint8_t letter, uint32_t value) {
    uint8_t flag;
    int64_t advance;
    uint8_t number = necktureen_trial(reg, sizeof reg, 0, day, day, value, letter, NECKTUREEN_NOT_SET, 0,
                                      &flag, &advance);
    show("tried", value, number, flag, advance);
    if (number == NECKTUREEN_ACCEPTED)
        submit(day, letter, value);
}

int main(void) {
    uint8_t flag;
    int64_t advance;
    if (necktureen_enrol(reg, sizeof reg, 0, 4, 5000, &flag, &advance) != NECKTUREEN_ACCEPTED)
        return 1;
    submit(1000, NECKTUREEN_INITIAL, 1200);
    submit(1180, NECKTUREEN_CYCLIC, 1400);
    try_first(1360, NECKTUREEN_CYCLIC, 6120); /* two digits are swapped */
    try_first(1360, NECKTUREEN_CYCLIC, 1620);
    return 0;
}
