#include <stdio.h>
#include "necktureen.h"

static uint8_t reg[NECKTUREEN_REGISTER_BYTES];
static struct necktureen_tally tally; /* of the meter at place 0 */

/* What the control room asks for every few seconds: no byte of the register is read. */
static void ask(void) {
    uint16_t standing, flagged;
    int64_t total;
    uint8_t number = necktureen_tally_report(&tally, &standing, &flagged, &total);
    printf("%d %s, %d standing, %d flagged, total %lld\n", number, necktureen_word(number), standing, flagged,
           (long long)total);
}

static void submit(uint16_t day, uint8_t letter, uint32_t value) {
    uint8_t flag;
    int64_t advance;
    uint8_t number = necktureen_submit(reg, sizeof reg, 0, day, day, value, letter, NECKTUREEN_NOT_SET, 0,
                                       &flag, &advance);
    necktureen_tally_change(&tally, NECKTUREEN_CALL_SUBMIT, 0, value, number, flag, advance);
    ask();
}

static void withdraw(uint16_t day, uint32_t value) {
    uint8_t flag;
    int64_t advance;
    uint8_t number = necktureen_withdraw(reg, sizeof reg, 0, day, value, &flag, &advance);
    necktureen_tally_change(&tally, NECKTUREEN_CALL_WITHDRAW, 0, 0, number, flag, advance);
    ask();
}

int main(void) {
    uint8_t flag;
    int64_t advance;
    uint8_t number = necktureen_enrol(reg, sizeof reg, 0, 4, 5000, &flag, &advance);
    necktureen_tally_change(&tally, NECKTUREEN_CALL_ENROL, 4, 0, number, flag, advance);
    submit(1000, NECKTUREEN_INITIAL, 9400);
    submit(1180, NECKTUREEN_CYCLIC, 9600);
    submit(1360, NECKTUREEN_CYCLIC, 9800);
    submit(1540, NECKTUREEN_CYCLIC, 100);
    withdraw(1540, 100);
    return 0;
}
