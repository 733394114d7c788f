#include <stdio.h>
#include "necktureen.h"

static uint8_t reg[NECKTUREEN_REGISTER_BYTES];

static void submit(uint16_t day, uint8_t letter, uint32_t value) {
    uint8_t flag;
    int64_t advance;
    necktureen_submit(reg, sizeof reg, 0, day, day, value, letter, NECKTUREEN_NOT_SET, 0, &flag, &advance);
}

/* The back office asks which read stands on a day. */
static void search(uint16_t place, uint16_t day) {
    uint8_t found, letter, indicator, flag, compared;
    uint32_t value;
    uint8_t number = necktureen_search(reg, sizeof reg, place, day, &found, &value, &letter, &indicator, &flag,
                                       &compared);
    printf("place %d, day %d: %d %s, %d compared", place, day, number, necktureen_word(number), compared);
    if (found)
        printf(", %c %u", letter, (unsigned)value);
    printf("\n");
}

int main(void) {
    uint8_t flag;
    int64_t advance;
    if (necktureen_enrol(reg, sizeof reg, 0, 4, 5000, &flag, &advance) != NECKTUREEN_ACCEPTED)
        return 1;
    submit(1000, NECKTUREEN_INITIAL, 1200);
    submit(1180, NECKTUREEN_CYCLIC, 1400);
    submit(1360, NECKTUREEN_CYCLIC, 1620);
    search(0, 1361); /* after the newest */
    search(0, 1360);
    search(0, 1180);
    search(0, 1179); /* between two */
    search(0, 999);  /* before the oldest */
    search(1, 1180); /* no meter there */
    return 0;
}
