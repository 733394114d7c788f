#include <stdio.h>
#include "necktureen.h"

static uint8_t reg[NECKTUREEN_REGISTER_BYTES];

static void submit(uint16_t day, uint8_t letter, uint32_t value) {
    uint8_t flag;
    int64_t advance;
    uint8_t number = necktureen_submit(reg, sizeof reg, 0, 1600, day, value, letter, NECKTUREEN_NOT_SET, 0,
                                       &flag, &advance);
    printf("%c %u: %d %s, flag %d, advance %lld\n", letter, (unsigned)value, number, necktureen_word(number),
           flag, (long long)advance);
}

int main(void) {
    uint8_t flag;
    int64_t advance;
    if (necktureen_enrol(reg, sizeof reg, 0, 4, 5000, &flag, &advance) != NECKTUREEN_ACCEPTED)
        return 1;
    submit(1000, NECKTUREEN_INITIAL, 9200);
    submit(1180, NECKTUREEN_CYCLIC, 9400);
    submit(1180, NECKTUREEN_CYCLIC, 9401);
    return 0;
}
