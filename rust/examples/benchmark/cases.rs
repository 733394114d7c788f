//! The cases that are measured, in the order of the tables.

use crate::journals::{carried_register, damage, day, next_read_carried, pseudo_register, register, tally};
use crate::journals::{read_after_turn, register_before_turn, ADVANCE, BEFORE_TURN, CAPACITY, DIALS, PLACES};
use crate::journals::{Head, Withdrawn};
use crate::rows::{Change, Made, Row};
use necktureen::{Answer, Call, Number, Reply, Submission, Tally, REGISTER_BYTES};

pub fn rows() -> Vec<Row> {
    let mut rows = reports();
    rows.extend(accepted_submissions());
    rows.extend([3, 25, 49].map(misfit));
    rows.extend([3, 25, 49].map(place_64));
    rows.extend([3, 25, 49].map(over_capacity));
    rows.extend([3, 25, 49].map(|entries| submit("held, low (19)", entries, 19, Number::Low)));
    rows.extend([3, 25, 49].map(|entries| submit("held, high (20)", entries, 201, Number::High)));
    rows.extend(of_past_months());
    rows.extend([1, 25, 50].map(|entries| withdraw("accepted", entries, Withdrawn::None)));
    rows.extend(WITHDRAWN.map(|(case, withdrawn)| withdraw(case, 50, withdrawn)));
    rows.push(enrol());
    rows.extend(folds());
    rows.extend([3, 49].map(|entries| carried(Made::Report, entries)));
    rows.extend([3, 48].map(|entries| carried(Made::Submit(next_read_carried(entries)), entries)));
    rows.extend(of_pseudo_meters());
    rows.extend(of_turns());
    rows.extend(of_trials());
    rows.extend([0, 50].map(|entries| row(Made::Journal, "handed back", entries, Number::Accepted)));
    rows.extend(searches());
    rows.extend(of_tallies());
    rows.extend([(Made::DateOf, "the date of a day"), (Made::DayOf, "the day of a date")].map(calendar));
    rows
}

fn row(made: Made, case: &'static str, entries: usize, expected: Number) -> Row {
    let places = (0..PLACES).collect();
    let register = register(entries, Withdrawn::None);
    Row { call: made.word(), case, entries, head: Head::Meter, expected, made, places, register }
}

/// The journals with withdrawn entries.
const WITHDRAWN: [(&str, Withdrawn); 5] = [
    ("accepted, every second entry withdrawn", Withdrawn::EverySecond),
    ("accepted, every second entry withdrawn, buckets alike", Withdrawn::EverySecondAlike),
    ("accepted, every second entry withdrawn, one bucket for all", Withdrawn::OneBucket),
    ("accepted, all entries but the first withdrawn", Withdrawn::AllButFirst),
    ("accepted, half the entries dated ahead and withdrawn", Withdrawn::DatedAhead),
];

// ---- Reports ----

fn report(entries: usize) -> Row {
    row(Made::Report, "accepted", entries, Number::Accepted)
}

fn report_at(case: &'static str, place: u16) -> Row {
    Row { case, places: vec![place; usize::from(PLACES)], ..report(25) }
}

fn report_damaged(entries: usize) -> Row {
    let mut row = row(Made::Report, "refused, the last entry damaged (4)", entries, Number::Damaged);
    damage(&mut row.register, entries - 1);
    row
}

fn reports() -> Vec<Row> {
    let mut rows: Vec<Row> = [0, 3, 25, 50].map(report).into();
    rows.extend(WITHDRAWN.map(|(case, withdrawn)| Row { case, register: register(50, withdrawn), ..report(50) }));
    rows.push(report_damaged(50));
    rows.push(report_at("accepted, place 0", 0));
    rows.push(report_at("accepted, place 31", 31));
    rows.push(report_at("accepted, place 63", 63));
    rows
}

// ---- Submissions ----

fn submit(case: &'static str, entries: usize, advance: u32, expected: Number) -> Row {
    row(Made::Submit(Withdrawn::None.next_read(entries, advance)), case, entries, expected)
}

pub fn submit_accepted(entries: usize) -> Row {
    submit("accepted", entries, ADVANCE, Number::Accepted)
}

fn submit_over(case: &'static str, entries: usize, withdrawn: Withdrawn) -> Row {
    let made = Made::Submit(withdrawn.next_read(withdrawn.standing(entries), withdrawn.advance()));
    Row { case, made, register: register(entries, withdrawn), ..submit_accepted(entries) }
}

fn accepted_submissions() -> Vec<Row> {
    let mut rows: Vec<Row> = [0, 3, 25, 49].map(submit_accepted).into();
    rows.extend(WITHDRAWN.map(|(case, withdrawn)| submit_over(case, 49, withdrawn)));
    rows
}

fn misfit(entries: usize) -> Row {
    let mut row = submit("refused at once, misfit (2)", entries, ADVANCE, Number::Misfit);
    row.register.truncate(REGISTER_BYTES - 1);
    row
}

fn place_64(entries: usize) -> Row {
    let row = submit("refused at once, place 64 (3)", entries, ADVANCE, Number::NoMeter);
    Row { places: vec![64; usize::from(PLACES)], ..row }
}

fn over_capacity(entries: usize) -> Row {
    submit("refused last, capacity (21)", entries, 190, Number::Capacity)
}

/// On 50 standing reads: one of them sent again, and a read of the day before the newest, on which none stands.
fn of_past_months() -> Vec<Row> {
    let repeats = [
        ("refused, the newest read again (1)", 49),
        ("refused, the middle read again (1)", 25),
        ("refused, the oldest read again (1)", 0),
    ];
    let again = |position| Withdrawn::None.next_read(position, ADVANCE);
    let mut rows: Vec<Row> =
        repeats.map(|(case, position)| row(Made::Submit(again(position)), case, 50, Number::Repeat)).into();
    let day_before = Submission { day: day(49) - 1, ..again(49) };
    rows.push(row(Made::Submit(day_before), "refused, a day before the newest (12)", 50, Number::BackDated));
    rows
}

// ---- The other calls ----

fn withdraw(case: &'static str, entries: usize, withdrawn: Withdrawn) -> Row {
    let last = withdrawn.standing(entries) - 1;
    let made = Made::Withdraw { day: day(last), value: withdrawn.value(last) };
    Row { register: register(entries, withdrawn), ..row(made, case, entries, Number::Accepted) }
}

/// On 50 standing reads: a day after the newest, the newest and the oldest.
fn searches() -> [Row; 3] {
    let asked = [("a day after the newest", day(49) + 1), ("the newest day", day(49)), ("the oldest day", day(0))];
    asked.map(|(case, day)| row(Made::Search { day }, case, 50, Number::Accepted))
}

fn folds() -> Vec<Row> {
    let fold = |entries| row(Made::Fold, "accepted", entries, Number::Accepted);
    let (case, withdrawn) = WITHDRAWN[0];
    let mut rows: Vec<Row> = [4, 25, 50].map(fold).into();
    rows.push(Row { case, register: register(50, withdrawn), ..fold(50) });
    rows.extend([4, 49].map(|entries| carried(Made::Fold, entries)));
    rows
}

/// On journals with a carry.
fn carried(made: Made, entries: usize) -> Row {
    let row = row(made, "accepted, after a carry", entries, Number::Accepted);
    Row { head: Head::Carried, register: carried_register(entries), ..row }
}

fn enrol() -> Row {
    let made = Made::Enrol { dials: DIALS, capacity: CAPACITY };
    Row { register: vec![0; REGISTER_BYTES], ..row(made, "accepted", 0, Number::Accepted) }
}

/// On journals of pseudo meters: an initial read, a final one and no other, but for misreads of the final one.
fn of_pseudo_meters() -> Vec<Row> {
    let made = Made::EnrolPseudo { dials: DIALS, capacity: CAPACITY };
    let enrolled = Row { register: vec![0; REGISTER_BYTES], ..row(made, "accepted", 0, Number::Accepted) };
    let read = |entries, letter| Made::Submit(Submission { letter, ..Withdrawn::None.next_read(entries, ADVANCE) });
    let (case, withdrawn) = ("accepted, a pseudo meter, all entries but the first withdrawn", Withdrawn::AllButFirst);
    vec![
        enrolled,
        pseudo(read(0, b'I'), "accepted, a pseudo meter's initial read", 0, Number::Accepted),
        pseudo(read(1, b'F'), "accepted, a pseudo meter's final read", 1, Number::Accepted),
        pseudo(read(1, b'C'), "refused, another type on a pseudo meter (29)", 1, Number::OtherType),
        pseudo(Made::Report, "accepted, a pseudo meter", 2, Number::Accepted),
        Row { register: pseudo_register(50, withdrawn), ..pseudo(Made::Report, case, 50, Number::Accepted) },
    ]
}

fn pseudo(made: Made, case: &'static str, entries: usize, expected: Number) -> Row {
    let register = pseudo_register(entries, Withdrawn::None);
    Row { head: Head::PseudoMeter, register, ..row(made, case, entries, expected) }
}

/// On journals whose dials are about to turn: a read after the turn, and one that may be after it.
fn of_turns() -> [Row; 3] {
    let unclear = Submission { value: 200, ..read_after_turn() };
    [
        turn(4, read_after_turn(), "accepted, four dials turn", Number::Accepted),
        turn(3, read_after_turn(), "accepted, three dials turn", Number::Accepted),
        turn(3, unclear, "refused, unclear whether three dials turned (18)", Number::Ef),
    ]
}

fn turn(dials: u8, read: Submission, case: &'static str, expected: Number) -> Row {
    Row { register: register_before_turn(dials), ..row(Made::Submit(read), case, BEFORE_TURN, expected) }
}

/// Reads that are tried, on journals on which they are submitted above.
fn of_trials() -> Vec<Row> {
    let initial = Made::Submit(Withdrawn::None.next_read(0, ADVANCE));
    let mut submissions: Vec<Row> = [0, 3, 25, 49].map(submit_accepted).into();
    submissions.extend([3, 25, 49].map(misfit));
    submissions.extend([3, 25, 49].map(over_capacity));
    submissions.extend([3, 25, 49].map(|entries| submit("would be held, low (19)", entries, 19, Number::Low)));
    submissions.push(carried(Made::Submit(next_read_carried(48)), 48));
    submissions.push(pseudo(initial, "accepted, a pseudo meter's initial read", 0, Number::Accepted));
    submissions.into_iter().map(tried).collect()
}

/// The same read on the same journals, tried and not submitted.
fn tried(submission: Row) -> Row {
    let Made::Submit(read) = submission.made else { panic!("only a submission is tried") };
    let made = Made::Trial(read);
    Row { call: made.word(), made, ..submission }
}

/// Of a tally of 50 reads: the report that a journal of 50 entries is walked for, and what changes it or does not.
fn of_tallies() -> [Row; 5] {
    let next = Call::Submit { place: 0, read: Withdrawn::None.next_read(50, ADVANCE) };
    let withdrawal = Call::Withdraw { place: 0, day: day(49), value: Withdrawn::None.value(49) };
    let advance = i64::from(ADVANCE);
    let refused = (Number::Capacity, 0);
    [
        row(Made::TallyReport(tally(50)), "a report from a tally", 50, Number::Accepted),
        told("a tally changed by a submission", next, (Number::Accepted, advance), tally(51)),
        told("a tally changed by a withdrawal", withdrawal, (Number::Accepted, -advance), tally(49)),
        told("a tally not changed by a refusal", next, refused, tally(50)),
        told("a tally not changed by a fold", Call::Fold { place: 0 }, (Number::Accepted, 0), tally(50)),
    ]
}

/// A tally of 50 reads is told of a call and its answer.
fn told(case: &'static str, call: Call, (number, advance): (Number, i64), after: Tally) -> Row {
    let reply = Reply::Answer(Answer { number, flag: 0, advance });
    row(Made::TallyChange(Change { before: tally(50), call, reply, after }), case, 50, Number::Accepted)
}

/// Without a register.
fn calendar((made, case): (Made, &'static str)) -> Row {
    Row { register: Vec::new(), ..row(made, case, 0, Number::Accepted) }
}
