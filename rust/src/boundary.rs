//! The functions of the proved library, as `c/necktureen.h` declares them.

use crate::Tally;

extern "C" {
    pub fn necktureen_enrol(
        register: *mut u8,
        length: usize,
        place: u16,
        dials: u8,
        capacity: u32,
        flag: *mut u8,
        advance: *mut i64,
    ) -> u8;

    pub fn necktureen_enrol_pseudo(
        register: *mut u8,
        length: usize,
        place: u16,
        dials: u8,
        capacity: u32,
        flag: *mut u8,
        advance: *mut i64,
    ) -> u8;

    pub fn necktureen_submit(
        register: *mut u8,
        length: usize,
        place: u16,
        submitted: u16,
        day: u16,
        value: u32,
        letter: u8,
        indicator: u8,
        reread: u8,
        flag: *mut u8,
        advance: *mut i64,
    ) -> u8;

    pub fn necktureen_trial(
        register: *const u8,
        length: usize,
        place: u16,
        submitted: u16,
        day: u16,
        value: u32,
        letter: u8,
        indicator: u8,
        reread: u8,
        flag: *mut u8,
        advance: *mut i64,
    ) -> u8;

    pub fn necktureen_withdraw(
        register: *mut u8,
        length: usize,
        place: u16,
        day: u16,
        value: u32,
        flag: *mut u8,
        advance: *mut i64,
    ) -> u8;

    pub fn necktureen_fold(register: *mut u8, length: usize, place: u16, flag: *mut u8, advance: *mut i64) -> u8;

    pub fn necktureen_report(
        register: *const u8,
        length: usize,
        place: u16,
        standing: *mut u16,
        flagged: *mut u16,
        total: *mut i64,
    ) -> u8;

    pub fn necktureen_journal(register: *const u8, length: usize, place: u16) -> usize;

    pub fn necktureen_search(
        register: *const u8,
        length: usize,
        place: u16,
        day: u16,
        found: *mut u8,
        value: *mut u32,
        letter: *mut u8,
        indicator: *mut u8,
        flag: *mut u8,
        compared: *mut u8,
    ) -> u8;

    pub fn necktureen_play(
        sheet: *const u8,
        sheet_length: usize,
        register: *mut u8,
        length: usize,
        text: *mut u8,
        text_length: usize,
    ) -> usize;

    pub fn necktureen_tally_change(
        tally: *mut Tally,
        kind: u8,
        dials: u8,
        value: u32,
        number: u8,
        flag: u8,
        advance: i64,
    );

    pub fn necktureen_tally_report(tally: *const Tally, standing: *mut u16, flagged: *mut u16, total: *mut i64) -> u8;

    pub fn necktureen_date_of(day: u16, year: *mut u16, month: *mut u8, day_of_month: *mut u8);

    pub fn necktureen_day_of(year: u16, month: u8, day_of_month: u8) -> u16;
}
