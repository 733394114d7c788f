/* Necktureen, a validator of water meter reads, for C99 and C++. Link with libnecktureen.a, which `rt lib` writes to
 * crates/necktureen/out when it is run in crates/necktureen: code for x86-64 that needs no library but the C library's
 * memcpy and memset.
 *
 * A register is NECKTUREEN_REGISTER_BYTES bytes that the caller lends, all zero at first; place p's meter has the
 * NECKTUREEN_AREA_BYTES bytes from NECKTUREEN_AREA_BYTES * p on. A function that takes a register takes it as a pointer
 * and its length, whatever that is and whatever the bytes are. Enrol, submit, trial, withdraw, fold, report and search
 * answer one of the numbers below. A number other than 0 changes no byte of the register and puts zeros in the other
 * fields; 19 and 20 store the held read.
 *
 * Pointers: a pointer and its length belong together. What is written (register, text, tally, other fields) is valid, apart
 * from each other and from all else that is lent. No pointer is kept, nothing is allocated, and nothing is remembered
 * between calls: calls on different registers may run at the same time, calls on one register one at a time.
 *
 * Widths: compile with -Wconversion. C cuts an argument that is too wide, silently: place 65537 in an int becomes
 * place 1, and day 66536 becomes day 1000. A place or day that was not cut, however wrong, gets its number.
 *
 * What stays: a register's bytes are the file format, and a register that one version wrote is read by the next.
 * Numbers keep their words, letters their types and functions their arguments; later versions add more. */
#ifndef NECKTUREEN_H
#define NECKTUREEN_H

#include <stddef.h>
#include <stdint.h>

#ifdef __cplusplus
extern "C" {
#endif

#define NECKTUREEN_VERSION "0.9.0"
#define NECKTUREEN_VERSION_MAJOR 0
#define NECKTUREEN_VERSION_MINOR 9
#define NECKTUREEN_VERSION_PATCH 0

#define NECKTUREEN_REGISTER_BYTES 32768
#define NECKTUREEN_AREA_BYTES 512

/* The most bytes of a day sheet, and the most text that playing it gives for each of its bytes. */
#define NECKTUREEN_SHEET_BYTES 60000
#define NECKTUREEN_TEXT_BYTES 43

/* The value that marks a missing one. */
#define NECKTUREEN_MISSING_VALUE UINT32_C(4294967295)

/* What a call answers. */
enum necktureen_number {
    NECKTUREEN_ACCEPTED = 0,
    NECKTUREEN_REPEAT = 1,
    NECKTUREEN_MISFIT = 2,
    NECKTUREEN_NO_METER = 3,
    NECKTUREEN_DAMAGED = 4,
    NECKTUREEN_MISSING = 5,
    NECKTUREEN_CONTENT = 6,
    NECKTUREEN_DATE = 7,
    NECKTUREEN_WITHDRAWN = 8,
    NECKTUREEN_AT = 9,
    NECKTUREEN_EH = 10,
    NECKTUREEN_BF = 11,
    NECKTUREEN_BACK_DATED = 12,
    NECKTUREEN_DF = 13,
    NECKTUREEN_INDICATOR_ON_OPENING = 14,
    NECKTUREEN_NO_ORIGINAL = 15,
    NECKTUREEN_FULL = 16,
    NECKTUREEN_EE = 17,
    NECKTUREEN_EF = 18,
    NECKTUREEN_LOW = 19,
    NECKTUREEN_HIGH = 20,
    NECKTUREEN_CAPACITY = 21,
    NECKTUREEN_NOT_STANDING = 22,
    NECKTUREEN_NOT_LAST = 23,
    NECKTUREEN_ENROLLED = 24,
    NECKTUREEN_PLATE = 25,
    NECKTUREEN_SHEET = 26,
    NECKTUREEN_NO_FOLD = 27,
    NECKTUREEN_OLDEST_KEPT = 28,
    NECKTUREEN_OTHER_TYPE = 29
};

/* The word of a number; "unknown" for one that is not in the table. */
static inline const char *necktureen_word(unsigned number) {
    static const char *const words[] = {
        "accepted",
        "repeat",
        "misfit",
        "no meter",
        "damaged",
        "missing",
        "content",
        "date",
        "withdrawn",
        "AT",
        "EH",
        "BF",
        "back-dated",
        "DF",
        "indicator on opening",
        "no original",
        "full",
        "EE",
        "EF",
        "low",
        "high",
        "capacity",
        "not standing",
        "not last",
        "enrolled",
        "plate",
        "sheet",
        "no fold",
        "oldest kept",
        "other type"
    };
    return number < sizeof words / sizeof words[0] ? words[number] : "unknown";
}

/* The type letters of reads. */
enum necktureen_letter {
    NECKTUREEN_INITIAL = 'I',
    NECKTUREEN_OPENING = 'O',
    NECKTUREEN_FINAL = 'F',
    NECKTUREEN_CYCLIC = 'C',
    NECKTUREEN_CUSTOMER = 'U',
    NECKTUREEN_AMR = 'R',
    NECKTUREEN_TRANSFER = 'T',
    NECKTUREEN_ESTIMATED_TRANSFER = 'S',
    NECKTUREEN_DISCONNECTION = 'X',
    NECKTUREEN_RECONNECTION = 'Y',
    NECKTUREEN_END = 'E'
};

/* The rollover indicator: what the sender says of the dials having passed all nines. */
enum necktureen_indicator {
    NECKTUREEN_NOT_SET = 0,
    NECKTUREEN_FALSE = 1,
    NECKTUREEN_TRUE = 2
};

/* The calls by their kinds in a day sheet, as a tally is told of them. */
enum necktureen_call {
    NECKTUREEN_CALL_ENROL = 1,
    NECKTUREEN_CALL_SUBMIT = 2,
    NECKTUREEN_CALL_WITHDRAW = 3,
    NECKTUREEN_CALL_REPORT = 4,
    NECKTUREEN_CALL_FOLD = 5,
    NECKTUREEN_CALL_ENROL_PSEUDO = 6
};

/* What a report of one meter says, kept by the caller beside the register, so that no journal is walked to ask for it:
 * five numbers of four bytes, 20 bytes with nothing between them. All zero at first, `{0}`, before the meter is
 * enrolled. */
struct necktureen_tally {
    uint32_t dials;
    uint32_t standing; /* reads that stand, folded ones among them, at most 65,535 */
    uint32_t flagged;  /* those of them that are flagged */
    uint32_t first;    /* the first value and the last, 0 where none stands */
    uint32_t last;
};

/* Enrols a meter of 3 to 9 dials and a capacity in cubic metres a year. 0, 2, 3, 24 or 25. */
uint8_t necktureen_enrol(uint8_t *reg, size_t length, uint16_t place, uint8_t dials, uint32_t capacity,
                         uint8_t *flag, int64_t *advance);

/* Enrols a pseudo meter, for a site that has no dial, with the same arguments and the same answers. It takes reads of
 * types I and F only; one of the nine other types is answered 29. All else is as with any meter. */
uint8_t necktureen_enrol_pseudo(uint8_t *reg, size_t length, uint16_t place, uint8_t dials, uint32_t capacity,
                                uint8_t *flag, int64_t *advance);

/* Submits a read: the day of submission, the read's day (1 is 1 January 2000), value, type letter, indicator and
 * re-read (0 or 1). Accepted, it answers the read's flag (1 if it was taken as a rollover) and its advance. */
uint8_t necktureen_submit(uint8_t *reg, size_t length, uint16_t place, uint16_t submitted, uint16_t day, uint32_t value,
                          uint8_t letter, uint8_t indicator, uint8_t reread, uint8_t *flag, int64_t *advance);

/* Tries a read: answers what necktureen_submit would answer to it now, 19 and 20 too, and writes no byte of the register,
 * so that no read is held either. It is no call on the meter: whatever comes after it comes as without it, and a tally is
 * told nothing of it. */
uint8_t necktureen_trial(const uint8_t *reg, size_t length, uint16_t place, uint16_t submitted, uint16_t day,
                         uint32_t value, uint8_t letter, uint8_t indicator, uint8_t reread, uint8_t *flag,
                         int64_t *advance);

/* Withdraws the last standing read, named by its day and value. Accepted, it answers the read's flag and its advance
 * negated. The oldest read that a fold kept is not withdrawn. */
uint8_t necktureen_withdraw(uint8_t *reg, size_t length, uint16_t place, uint16_t day, uint32_t value, uint8_t *flag,
                            int64_t *advance);

/* Folds the standing reads but the last three into a carry, which a later fold adds to, and drops the withdrawn reads
 * dated no later than the oldest read that is kept: it makes room in a journal of 50 entries. A report is the same
 * before and after; every check sees the reads that are kept alone. 0, 2, 3, 4 or 27; flag and advance are 0. */
uint8_t necktureen_fold(uint8_t *reg, size_t length, uint16_t place, uint8_t *flag, int64_t *advance);

/* Reports how many reads stand, folded ones among them, how many of these are flagged, and the total from the first to
 * the last. */
uint8_t necktureen_report(const uint8_t *reg, size_t length, uint16_t place, uint16_t *standing, uint16_t *flagged,
                          int64_t *total);

/* How many bytes the meter's journal takes, from reg + NECKTUREEN_AREA_BYTES * place on; 0 where a report is refused. */
size_t necktureen_journal(const uint8_t *reg, size_t length, uint16_t place);

/* Searches for the standing read of a day, from the newest back. The number is a report's: 0, 2, 3 or 4. Puts 1 and the
 * read's value, type letter, indicator and flag if one stands on the day, else 0 and zeros; and how many standing days
 * were compared, those later than the day and one more if any is not later. Every field is put, whatever the number. */
uint8_t necktureen_search(const uint8_t *reg, size_t length, uint16_t place, uint16_t day, uint8_t *found,
                          uint32_t *value, uint8_t *letter, uint8_t *indicator, uint8_t *flag, uint8_t *compared);

/* Plays a day sheet on the register and writes a line of text for each call: number, flag, advance; for a report
 * number, standing, flagged, total. A fault of the sheet gives the line "26 0 0" and ends it. It answers the length of
 * the whole text, and writes what `text_length` bytes hold of it; the calls are made all the same. There is no byte 0
 * after the text. */
size_t necktureen_play(const uint8_t *sheet, size_t sheet_length, uint8_t *reg, size_t length, uint8_t *text,
                       size_t text_length);

/* Changes a tally in place, after every answered call that names its meter: by the call's kind, the dials of an enrolment
 * (of either profile) or the value of a submission, and by what was answered. Pass 0 for dials or value of other calls;
 * they are not looked at. A refusal, a report, a fold and an unknown kind change nothing; nor does what would make of it
 * a tally that reports 4. A trial has no kind. */
void necktureen_tally_change(struct necktureen_tally *tally, uint8_t kind, uint8_t dials, uint32_t value,
                             uint8_t number, uint8_t flag, int64_t advance);

/* Reports from a tally what necktureen_report answers of its meter, and reads no register: 0; 3 for a tally of zeros; 4
 * for any other whose dials are not 3 to 9, with a value that the dials do not show or that is not 0 where none stands,
 * with more flagged than standing, or with more than 65,535 standing. */
uint8_t necktureen_tally_report(const struct necktureen_tally *tally, uint16_t *standing, uint16_t *flagged,
                                int64_t *total);

/* Puts the calendar date of a day: 2000, 1, 1 for day 1, and 2179, 6, 5 for the last, 65,535. Day 0 has none and gets
 * three zeros. */
void necktureen_date_of(uint16_t day, uint16_t *year, uint8_t *month, uint8_t *day_of_month);

/* The day of a calendar date; 0 for a date that is not in the calendar, and for one before day 1 or after the last. */
uint16_t necktureen_day_of(uint16_t year, uint8_t month, uint8_t day_of_month);

#ifdef __cplusplus
}
#endif

#endif
