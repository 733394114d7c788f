//! The search for a standing read of a day: what it finds and how many standing days it compares, of all 65,536 days. The
//! library answers on registers in memory that cannot be written; the second writing and rows by hand say what it should.

mod common;
mod lists;
mod peer;
mod sealed;

use common::{area, carried, carry, entry, gone, read, refusal, stands, with_area, HELD, STANDING, WITHDRAWN};
use lists::{any_register, misfit_register, say, seed, Random};
use necktureen::{indicator, search, submit, Number, Search, Submission, AREA_BYTES, REGISTER_BYTES};
use sealed::Sealed;

const REGISTERS: usize = 24;

// ---- Beside the second writing ----

/// What the random journals had, so that a run shows what it reached.
#[derive(Debug, Default)]
struct Seen {
    journals: usize,
    none_standing: usize,
    after_a_carry: usize,
    withdrawn_between: usize,
    held: usize,
    fifty_standing: usize,
    found: usize,
    no_meter: usize,
    damaged: usize,
}

impl Seen {
    fn count(&mut self, area: &[u8], answers: &[Search]) {
        let is_carried = area[6] == 5;
        let kinds: Vec<u8> = area[if is_carried { 15 } else { 6 }..].chunks_exact(10).map(|entry| entry[0]).collect();
        let standing: Vec<usize> = (0..kinds.len()).filter(|&at| kinds[at] == STANDING).collect();
        let between = standing.first().zip(standing.last()).map_or(&[][..], |(&first, &last)| &kinds[first..last]);
        self.journals += 1;
        self.none_standing += usize::from(standing.is_empty());
        self.after_a_carry += usize::from(is_carried);
        self.withdrawn_between += usize::from(between.contains(&WITHDRAWN));
        self.held += usize::from(kinds.contains(&HELD));
        self.fifty_standing += usize::from(standing.len() == 50);
        self.found += answers.iter().filter(|answer| answer.found.is_some()).count();
    }

    fn count_refused(&mut self, number: Number) {
        self.no_meter += usize::from(number == Number::NoMeter);
        self.damaged += usize::from(number == Number::Damaged);
    }

    fn reached_all(&self) -> bool {
        let each = [
            self.none_standing,
            self.after_a_carry,
            self.withdrawn_between,
            self.held,
            self.fifty_standing,
            self.found,
            self.no_meter,
            self.damaged,
        ];
        each.iter().all(|&seen| seen > 0)
    }
}

fn refused(number: Number) -> Search {
    Search { number, found: None, compared: 0 }
}

/// Days over the whole range, the first and the last among them.
fn some_days() -> impl Iterator<Item = u16> {
    (0..=u16::MAX).step_by(255)
}

/// Every day is asked for where a journal is: those before the first standing one, between any two, on each, and after the
/// last. Where none is, every day has the same answer, and some are asked for.
fn compare(register: &[u8], place: u16, seen: &mut Seen) {
    match peer::search_each_day(register, place) {
        Ok(answers) => {
            let area = &register[AREA_BYTES * usize::from(place)..][..AREA_BYTES];
            seen.count(area, &answers);
            for (day, answer) in (0..=u16::MAX).zip(answers) {
                assert_eq!(search(register, place, day), answer, "place {place}, day {day}, {area:?}");
            }
        }
        Err(number) => {
            seen.count_refused(number);
            for day in some_days() {
                assert_eq!(search(register, place, day), refused(number), "place {place}, day {day}");
            }
        }
    }
}

#[test]
fn the_search_answers_as_the_peer_does() {
    let seed = seed();
    let mut random = Random::new(seed);
    let mut seen = Seen::default();
    for _ in 0..REGISTERS {
        let register = Sealed::of(&any_register(&mut random));
        for place in (0..=64).chain([255, 256, 65_535]) {
            compare(register.bytes(), place, &mut seen);
        }
    }
    say(&format!("searched on every day, seed {seed}: {seen:?}"));
    assert!(seen.reached_all(), "never reached, seed {seed}: {seen:?}");
}

/// A register of another length has no place that is searched.
#[test]
fn a_misfit_register_is_not_searched() {
    let whole = with_area(0, &area(&three_standing()));
    for length in [0, 1, AREA_BYTES, REGISTER_BYTES - 1, REGISTER_BYTES + 1, 2 * REGISTER_BYTES] {
        let mut bytes = whole.clone();
        bytes.resize(length, 0);
        let register = Sealed::of(&bytes);
        for place in [0, 63, 64, 65_535] {
            for day in [0, 99, 100, 280, 65_535] {
                assert_eq!(search(register.bytes(), place, day), refused(Number::Misfit), "{length} bytes, {place}");
            }
        }
    }
    let mut random = Random::new(7);
    for _ in 0..100 {
        let register = misfit_register(&mut random);
        assert_eq!(search(&register, random.index(70) as u16, 100), refused(Number::Misfit), "{}", register.len());
    }
}

// ---- By hand ----

/// A row for each day that a read is found on, and for each that is compared with another number of days than the day
/// before it. Of a read value, type, indicator and flag.
type Row = (u16, u8, Option<(u32, u8, u8, u8)>);

fn rows(register: &[u8], place: u16) -> Vec<Row> {
    let register = Sealed::of(register);
    let mut rows = Vec::new();
    let mut before = 0;
    for day in 0..=u16::MAX {
        let Search { number, found, compared } = search(register.bytes(), place, day);
        assert_eq!(number, Number::Accepted, "day {day}");
        assert!(found.map_or(true, |read| read.day == day), "day {day}");
        if found.is_some() || compared != before {
            rows.push((day, compared, found.map(|read| (read.value, read.letter, read.indicator, read.flag))));
        }
        before = compared;
    }
    rows
}

/// Three reads stand; a withdrawn one comes before each of them and after the last, and one is held.
fn three_standing() -> Vec<[u8; 10]> {
    vec![
        gone(50, 1),
        entry(STANDING, 100, 10, b'I', 0, 0),
        gone(280, 19),
        stands(280, 20),
        gone(300, 25),
        entry(STANDING, 460, 30, b'U', 1, 0),
        gone(640, 31),
        entry(HELD, 640, 32, b'C', 0, 0),
    ]
}

const THREE_FOUND: [Row; 4] = [
    (0, 3, None),
    (100, 3, Some((10, b'I', 0, 0))),
    (280, 2, Some((20, b'C', 0, 0))),
    (460, 1, Some((30, b'U', 1, 0))),
];

#[test]
fn only_standing_days_are_compared() {
    assert_eq!(rows(&with_area(9, &area(&three_standing())), 9), THREE_FOUND);
}

/// The folded reads are no entries, and are not compared.
#[test]
fn folded_reads_are_not_compared() {
    assert_eq!(rows(&with_area(0, &carried(carry(5, 99, 1), &three_standing())), 0), THREE_FOUND);
}

/// A flagged read with its indicator, between withdrawn ones and one that is held; and an F alone after a carry.
#[test]
fn a_find_has_every_field() {
    let turned = [
        entry(WITHDRAWN, 90, 7000, b'I', 0, 0),
        entry(STANDING, 100, 9200, b'I', 0, 0),
        gone(280, 9300),
        stands(280, 9400),
        entry(STANDING, 460, 100, b'U', 2, 1),
        gone(640, 310),
        entry(HELD, 640, 900, b'C', 0, 0),
    ];
    let expected = [
        (0, 3, None),
        (100, 3, Some((9200, b'I', 0, 0))),
        (280, 2, Some((9400, b'C', 0, 0))),
        (460, 1, Some((100, b'U', 2, 1))),
    ];
    assert_eq!(rows(&with_area(0, &area(&turned)), 0), expected);
    let last = [entry(STANDING, 65_535, 50, b'F', 0, 0)];
    let expected = [(0, 1, None), (65_535, 1, Some((50, b'F', 0, 0)))];
    assert_eq!(rows(&with_area(2, &carried(carry(40, 3, 2), &last)), 2), expected);
}

#[test]
fn where_none_stands_nothing_is_compared() {
    assert_eq!(rows(&with_area(0, &area(&[])), 0), []);
    assert_eq!(rows(&with_area(63, &area(&[gone(100, 10), gone(100, 11)])), 63), []);
}

#[test]
fn where_no_meter_is_nothing_is_searched() {
    let register = with_area(9, &area(&three_standing()));
    for day in some_days().chain([100, 280, 460]) {
        for place in [0, 8, 10, 63, 64, 65_535] {
            assert_eq!(search(&register, place, day), refused(Number::NoMeter), "place {place}, day {day}");
        }
    }
}

/// One byte after the last entry, and the reads are not told any more.
#[test]
fn a_damaged_area_is_not_searched() {
    let mut register = with_area(9, &area(&three_standing()));
    register[AREA_BYTES * 10 - 1] = 1;
    for day in some_days().chain([100, 280, 460]) {
        assert_eq!(search(&register, 9, day), refused(Number::Damaged), "day {day}");
    }
}

#[test]
fn the_first_and_the_last_day_are_found() {
    let journal = [entry(STANDING, 1, 10, b'O', 0, 0), gone(65_535, 11), stands(65_535, 12)];
    let expected = [(0, 2, None), (1, 2, Some((10, b'O', 0, 0))), (65_535, 1, Some((12, b'C', 0, 0)))];
    assert_eq!(rows(&with_area(63, &area(&journal)), 63), expected);
}

/// As a line of text.
#[test]
fn an_answer_is_shown_in_words() {
    let register = with_area(9, &area(&three_standing()));
    let shown = [
        (9, 280, "0 accepted, 2 compared, day 280, value 20, cyclic, not set, flag 0"),
        (9, 281, "0 accepted, 2 compared, none found"),
        (8, 280, "3 no meter"),
    ];
    for (place, day, line) in shown {
        assert_eq!(search(&register, place, day).to_string(), line);
    }
}

/// What the calls answer, whatever the search compares: a month that is sent again, read by read, with withdrawn reads
/// between.
#[test]
fn a_month_is_sent_again() {
    let misread = |day: u16| gone(day, u32::from(day) + 100);
    let month = (2..=25).flat_map(|day| [misread(day), stands(day, u32::from(day))]);
    let journal: Vec<[u8; 10]> = [entry(STANDING, 1, 1, b'I', 0, 0)].into_iter().chain(month).collect();
    let register = with_area(5, &area(&journal));
    let is_answered = |day, letter, value, indicator, number| {
        let mut after = register.clone();
        let sent = Submission { indicator, ..read(day, letter, value) };
        assert_eq!(submit(&mut after, 5, sent), refusal(number), "day {day}, value {value}");
        assert_eq!(after, register, "day {day}, value {value}");
    };
    is_answered(1, b'I', 1, indicator::NOT_SET, Number::Repeat);
    for day in 2..=25 {
        let value = u32::from(day);
        is_answered(day, b'C', value, indicator::NOT_SET, Number::Repeat);
        is_answered(day, b'C', value, indicator::FALSE, Number::Eh);
        is_answered(day, b'C', value + 1, indicator::NOT_SET, Number::Bf);
        is_answered(day, b'F', value, indicator::NOT_SET, Number::At);
        is_answered(day, b'C', value + 100, indicator::NOT_SET, Number::Withdrawn);
    }
}

/// A day between two that stand is back-dated, and so is one before the first.
#[test]
fn a_day_between_is_back_dated() {
    let register = with_area(0, &area(&three_standing()));
    for day in (1..460).filter(|day| ![100, 280].contains(day)) {
        let mut after = register.clone();
        assert_eq!(submit(&mut after, 0, read(day, b'C', 29)), refusal(Number::BackDated), "day {day}");
        assert_eq!(after, register, "day {day}");
    }
}
