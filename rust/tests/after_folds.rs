//! What the calls after a fold see: the reads that it kept, and nothing of the others but in a report.

mod common;

use common::*;
use necktureen::{enrol, fold, indicator, journal, report, submit, withdraw, Call, Number, Report, Submission};

/// A register with a meter of four dials at place 0 and these reads, each accepted.
fn with_reads(reads: &[(u16, u8, u32)]) -> Vec<u8> {
    let mut register = zeros();
    assert_eq!(enrol(&mut register, 0, 4, 5000), taken(0, 0));
    for &(day, letter, value) in reads {
        assert_eq!(submit(&mut register, 0, read(day, letter, value)).number, Number::Accepted, "day {day}");
    }
    register
}

fn sent(register: &[u8], read: Submission, number: Number) {
    refuses(register, Call::Submit { place: 0, read }, number, "sent");
}

/// The 49th entry is written after a carry, and the next read is refused: a fold makes room again.
#[test]
fn a_journal_is_full_at_49_after_a_carry() {
    let mut register = with_area(0, &area(&daily(50)));
    sent(&register, read(51, b'C', 51), Number::Full);
    assert_eq!(fold(&mut register, 0), taken(0, 0));
    for day in 51..=96 {
        assert_eq!(submit(&mut register, 0, read(day, b'C', u32::from(day))), taken(0, 1), "day {day}");
    }
    assert_eq!(journal(&register, 0).len(), 505);
    sent(&register, read(97, b'C', 97), Number::Full);
    // Withdrawn entries count too.
    assert_eq!(withdraw(&mut register, 0, 96, 96), taken(0, -1));
    sent(&register, read(97, b'C', 97), Number::Full);
    assert_eq!(report(&register, 0), Report { number: Number::Accepted, standing: 95, flagged: 0, total: 94 });
    assert_eq!(fold(&mut register, 0), taken(0, 0));
    assert_eq!(submit(&mut register, 0, read(97, b'C', 97)), taken(0, 2));
}

/// A held read is the 49th entry after 48 others, and its re-read takes its place. After 49 none is held.
#[test]
fn the_49th_entry_may_be_held() {
    let after_carry = |count: u16| carried(carry(1, 1, 0), &daily(count + 1)[1..]);
    let mut register = with_area(0, &after_carry(48));
    let query = read(60, b'C', 900);
    assert_eq!(submit(&mut register, 0, query), refusal(Number::High));
    assert_eq!(register[495..505], entry(HELD, 60, 900, b'C', 0, 0));
    assert_eq!(journal(&register, 0).len(), 505);
    // A capacity of 5000 m³ a year is not above 851 m³ in 11 days.
    let again = Submission { reread: 1, ..query };
    sent(&register, again, Number::Capacity);
    let smaller = read(60, b'C', 90);
    assert_eq!(submit(&mut register, 0, smaller), refusal(Number::High));
    assert_eq!(submit(&mut register, 0, Submission { reread: 1, ..smaller }), taken(0, 41));
    sent(&register, read(61, b'C', 91), Number::Full);
    sent(&with_area(0, &after_carry(49)), query, Number::Full);
}

/// The bytes of FORMAT's example: 50 monthly reads, the first of them 9000, and the dials turn once.
#[test]
fn a_carry_has_its_bytes() {
    let mut register = with_reads(&[(1, b'I', 9000)]);
    for month in 1..50_u16 {
        let value = (9000 + 100 * u32::from(month)) % 10_000;
        assert_eq!(submit(&mut register, 0, read(1 + 30 * month, b'C', value)), taken(u8::from(month == 10), 100));
    }
    assert_eq!(fold(&mut register, 0), taken(0, 0));
    assert_eq!(register[6..15], [0x05, 0x28, 0x23, 0x00, 0x00, 0x2F, 0x00, 0x01, 0x00]);
}

/// The held read of a folded journal is confirmed as before.
#[test]
fn a_held_read_is_confirmed_after_a_fold() {
    let mut register = with_reads(&[(100, b'I', 1000), (200, b'C', 1100), (300, b'C', 1200), (400, b'C', 1300)]);
    let query = read(500, b'C', 1600);
    assert_eq!(submit(&mut register, 0, query), refusal(Number::High));
    assert_eq!(fold(&mut register, 0), taken(0, 0));
    assert_eq!(submit(&mut register, 0, Submission { reread: 1, ..query }), taken(0, 300));
    let kept = [stands(200, 1100), stands(300, 1200), stands(400, 1300), stands(500, 1600)];
    assert_eq!(register, with_area(0, &carried(carry(1000, 1, 0), &kept)));
}

/// Sends a read, and withdraws it.
fn misread(register: &mut [u8], day: u16, value: u32) {
    assert_eq!(submit(register, 0, read(day, b'C', value)).number, Number::Accepted, "day {day}");
    assert_eq!(withdraw(register, 0, day, value).number, Number::Accepted, "day {day}");
}

/// Five reads, with a misread of day 250, one of the day of the third, and one of day 450, each withdrawn.
fn with_misreads() -> Vec<u8> {
    let mut register = with_reads(&[(100, b'I', 1000), (200, b'C', 1100)]);
    misread(&mut register, 250, 1160);
    misread(&mut register, 300, 1207);
    assert_eq!(submit(&mut register, 0, read(300, b'C', 1200)), taken(0, 100));
    assert_eq!(submit(&mut register, 0, read(400, b'C', 1300)), taken(0, 100));
    misread(&mut register, 450, 1360);
    assert_eq!(submit(&mut register, 0, read(500, b'C', 1400)), taken(0, 100));
    register
}

/// A read that was withdrawn, sent again: 8 before the fold that drops it, and one of 9 to 12 from then on. What the fold
/// keeps is 8 as before.
#[test]
fn a_withdrawn_read_is_sent_again_before_a_fold_and_after() {
    let mut register = with_misreads();
    let before = read(250, b'C', 1160);
    let same_day = read(300, b'C', 1207);
    let with_indicator = Submission { indicator: indicator::FALSE, ..same_day };
    let each = [
        (before, Number::BackDated),
        (read(250, b'F', 1160), Number::BackDated),
        (same_day, Number::Bf),
        (with_indicator, Number::Eh),
        (read(300, b'F', 1207), Number::At),
        (read(300, b'I', 1207), Number::At),
        (read(450, b'C', 1360), Number::Withdrawn),
    ];
    for (read, _) in each {
        sent(&register, read, Number::Withdrawn);
    }
    assert_eq!(fold(&mut register, 0), taken(0, 0));
    let kept = [stands(300, 1200), stands(400, 1300), gone(450, 1360), stands(500, 1400)];
    assert_eq!(register, with_area(0, &carried(carry(1000, 2, 0), &kept)));
    for (read, number) in each {
        sent(&register, read, number);
    }
    // Those that were folded are sent again too.
    sent(&register, read(100, b'I', 1000), Number::BackDated);
    sent(&register, read(200, b'C', 1100), Number::BackDated);
    sent(&register, read(300, b'C', 1200), Number::Repeat);
}

/// 23 while others stand, 28 when it stands alone, and then the journal goes on.
#[test]
fn the_oldest_kept_read_is_not_withdrawn() {
    let mut register = with_reads(&[(100, b'I', 1000), (200, b'C', 1100), (300, b'C', 1200), (400, b'C', 1300)]);
    assert_eq!(fold(&mut register, 0), taken(0, 0));
    let oldest = Call::Withdraw { place: 0, day: 200, value: 1100 };
    let folded = Call::Withdraw { place: 0, day: 100, value: 1000 };
    for (day, value) in [(400, 1300), (300, 1200)] {
        refuses(&register, oldest, Number::NotLast, "others stand");
        refuses(&register, folded, Number::NotStanding, "a folded read");
        assert_eq!(withdraw(&mut register, 0, day, value), taken(0, -100));
    }
    refuses(&register, oldest, Number::OldestKept, "alone");
    for other in [(200, 1101), (201, 1100), (300, 1200), (100, 1000)] {
        let call = Call::Withdraw { place: 0, day: other.0, value: other.1 };
        refuses(&register, call, Number::NotStanding, "alone");
    }
    // A held read does not stand beside it.
    let mut with_held = register.clone();
    with_held[45..55].copy_from_slice(&entry(HELD, 500, 1600, b'C', 0, 0));
    refuses(&with_held, oldest, Number::OldestKept, "alone, with a held read");
    assert_eq!(report(&register, 0), Report { number: Number::Accepted, standing: 2, flagged: 0, total: 100 });
    refuses(&register, Call::Fold { place: 0 }, Number::NoFold, "alone");
    assert_eq!(submit(&mut register, 0, read(400, b'C', 1310)), taken(0, 210));
    refuses(&register, oldest, Number::NotLast, "another stands again");
    // Without a carry the only read is withdrawn.
    assert_eq!(withdraw(&mut with_reads(&[(100, b'I', 1000)]), 0, 100, 1000), taken(0, 0));
}

/// Three kept reads are enough to see the dials turn; with two of them it is unclear, though a third was folded.
#[test]
fn detection_sees_the_kept_reads_alone() {
    let mut register = with_reads(&[(100, b'I', 9100), (280, b'C', 9300), (460, b'C', 9500), (640, b'C', 9700)]);
    assert_eq!(submit(&mut register.clone(), 0, read(820, b'C', 50)), taken(1, 350));
    let unfolded = register.clone();
    assert_eq!(fold(&mut register, 0), taken(0, 0));
    assert_eq!(submit(&mut register.clone(), 0, read(820, b'C', 50)), taken(1, 350));
    for (mut register, answer) in [(unfolded, taken(1, 500)), (register, refusal(Number::Ef))] {
        assert_eq!(withdraw(&mut register, 0, 640, 9700), taken(0, -200));
        assert_eq!(submit(&mut register, 0, read(820, b'C', 0)), answer);
    }
}

/// The advance that a volume is compared with is that of the kept reads.
#[test]
fn volume_sees_the_kept_reads_alone() {
    let mut register = with_reads(&[(100, b'I', 1000), (200, b'C', 1100), (300, b'C', 1200), (400, b'C', 1300)]);
    let unfolded = register.clone();
    assert_eq!(fold(&mut register, 0), taken(0, 0));
    // Two of three are withdrawn: the one that is left had an advance of 100 before it was folded.
    for (mut register, number) in [(unfolded, Number::High), (register, Number::Accepted)] {
        assert_eq!(withdraw(&mut register, 0, 400, 1300), taken(0, -100));
        assert_eq!(withdraw(&mut register, 0, 300, 1200), taken(0, -100));
        assert_eq!(submit(&mut register, 0, read(350, b'C', 1500)).number, number);
    }
}

/// The fold of a journal after every read from the fourth on is what one fold at the end leaves.
#[test]
fn many_folds_leave_what_one_does() {
    let (mut often, mut once) = (with_area(3, &area(&[])), with_area(3, &area(&[])));
    for day in 1..=50_u16 {
        let next = read(day, if day == 1 { b'I' } else { b'C' }, u32::from(day));
        let answer = submit(&mut often, 3, next);
        assert_eq!(answer, submit(&mut once, 3, next), "day {day}");
        let expected = if day < 4 { Number::NoFold } else { Number::Accepted };
        assert_eq!(fold(&mut often, 3), refusal(expected), "day {day}");
        assert_eq!(report(&often, 3), report(&once, 3), "day {day}");
    }
    assert_eq!(fold(&mut once, 3), refusal(Number::Accepted));
    assert_eq!(often, once);
}

// ---- After a carry that was made by hand ----

/// The oldest kept read is not the first one that there was: no I or O is asked for, and none may follow.
#[test]
fn a_read_stands_after_a_carry() {
    let register = with_area(0, &carried(carry(5, 9, 0), &[stands(100, 10)]));
    for (letter, number) in [(b'I', Number::At), (b'O', Number::At), (b'F', Number::Accepted), (b'C', Number::Accepted)]
    {
        assert_eq!(submit(&mut register.clone(), 0, read(200, letter, 20)).number, number, "{}", char::from(letter));
    }
    // The type and the indicator of the oldest kept read count for a read of its day.
    for (submission, number) in [
        (read(100, b'C', 10), Number::Repeat),
        (read(100, b'F', 10), Number::At),
        (read(100, b'C', 11), Number::Bf),
        (read(99, b'C', 9), Number::BackDated),
    ] {
        assert_eq!(submit(&mut register.clone(), 0, submission), refusal(number), "{submission}");
    }
}

#[test]
fn an_f_after_a_carry_is_the_one_f() {
    let register = with_area(0, &carried(carry(5, 9, 0), &[entry(STANDING, 100, 10, b'F', 0, 0)]));
    assert_eq!(submit(&mut register.clone(), 0, read(200, b'F', 20)), refusal(Number::At));
    assert_eq!(submit(&mut register.clone(), 0, read(200, b'C', 20)).number, Number::Accepted);
}

/// With one kept read there is no advance to compare with: the capacity alone limits the next one.
#[test]
fn a_lone_kept_read_has_no_advance() {
    let lone = carried(carry(5, 9, 0), &[entry(STANDING, 400, 1000, b'C', 0, 1)]);
    let mut register = with_area(0, &lone);
    assert_eq!(submit(&mut register.clone(), 0, read(765, b'C', 6000)).number, Number::Capacity);
    let answer = submit(&mut register, 0, read(765, b'C', 5999));
    assert_eq!((answer.number, answer.flag, answer.advance), (Number::Accepted, 0, 4999));
    let answer = withdraw(&mut register, 0, 765, 5999);
    assert_eq!((answer.number, answer.flag, answer.advance), (Number::Accepted, 0, -4999));
}
