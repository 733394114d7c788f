//! The numbers that the calls answer.

use core::fmt;

/// One row a number: its name, the number, the paper's word, and when it is answered.
macro_rules! numbers {
    ($($name:ident = $number:literal, $word:literal, $when:literal;)*) => {
        /// What a call answers. Later versions add numbers.
        #[derive(Clone, Copy, Debug, PartialEq, Eq, PartialOrd, Ord, Hash)]
        #[non_exhaustive]
        #[repr(u8)]
        pub enum Number {
            $(#[doc = concat!(stringify!($number), ", ", $word, ": ", $when, ".")] $name = $number,)*
            /// A number that this version has no row for: a newer library was linked. It is not in [`Number::ALL`].
            Unknown = 255,
        }

        impl Number {
            /// Every number of the table, in order.
            pub const ALL: &'static [Number] = &[$(Number::$name,)*];

            /// The paper's word.
            pub const fn word(self) -> &'static str {
                match self { $(Number::$name => $word,)* Number::Unknown => "unknown" }
            }

            /// When it is answered, in a few words.
            pub const fn when(self) -> &'static str {
                match self { $(Number::$name => $when,)* Number::Unknown => "this version has no word for it" }
            }
        }

        impl TryFrom<u8> for Number {
            type Error = UnknownNumber;

            fn try_from(number: u8) -> Result<Number, UnknownNumber> {
                match number {
                    $($number => Ok(Number::$name),)*
                    other => Err(UnknownNumber(other)),
                }
            }
        }
    };
}

numbers! {
    Accepted = 0, "accepted", "no other applies";
    Repeat = 1, "repeat", "a standing read has the same day, type, value and indicator";
    Misfit = 2, "misfit", "the register is not 32,768 bytes long";
    NoMeter = 3, "no meter", "the place is above 63, or nothing is enrolled there";
    Damaged = 4, "damaged", "the meter's area is neither zero nor a sound journal";
    Missing = 5, "missing", "the value is 4,294,967,295, the mark for unpopulated";
    Content = 6, "content", "unknown type, indicator above 2, re-read above 1, or a value that the dials do not hold";
    Date = 7, "date", "read day 0, or after the submission day";
    Withdrawn = 8, "withdrawn", "this day and value were withdrawn";
    At = 9, "AT", "I or F on the day of a standing read, I or O with a read standing, or F with an F standing";
    Eh = 10, "EH", "a read of that day stands with another indicator";
    Bf = 11, "BF", "a read of that day stands and differs";
    BackDated = 12, "back-dated", "earlier than the last standing read";
    Df = 13, "DF", "none stands, and the type is not I or O";
    IndicatorOnOpening = 14, "indicator on opening", "I or O with an indicator";
    NoOriginal = 15, "no original", "a re-read of nothing that is held";
    Full = 16, "full", "standing and withdrawn entries number 50, or 49 after a fold";
    Ee = 17, "EE", "the indicator denies what detection found";
    Ef = 18, "EF", "unclear whether the dials turned, and the indicator is not set";
    Low = 19, "low", "the advance is low; submitted, the read is held";
    High = 20, "high", "the advance is high; submitted, the read is held";
    Capacity = 21, "capacity", "the advance, taken over the days of the read's year, is not below the meter's capacity";
    NotStanding = 22, "not standing", "nothing stands with that day and value";
    NotLast = 23, "not last", "it stands, but not last";
    Enrolled = 24, "enrolled", "the area is not all zero";
    Plate = 25, "plate", "dials not 3 to 9, or capacity 0";
    Sheet = 26, "sheet", "unknown kind, cut body, or over 60,000 bytes";
    NoFold = 27, "no fold", "fewer than four reads stand besides the folded ones, or an F stands";
    OldestKept = 28, "oldest kept", "it is the oldest read that a fold kept";
    OtherType = 29, "other type", "a pseudo meter takes types I and F only";
}

impl Number {
    /// What the library answered, whatever it was.
    pub(crate) fn answered(number: u8) -> Number {
        Number::try_from(number).unwrap_or(Number::Unknown)
    }
}

impl From<Number> for u8 {
    fn from(number: Number) -> u8 {
        number as u8
    }
}

impl fmt::Display for Number {
    /// Number and word, as in `18 EF`.
    fn fmt(&self, f: &mut fmt::Formatter<'_>) -> fmt::Result {
        write!(f, "{} {}", *self as u8, self.word())
    }
}

/// A number that is not in the table.
#[derive(Clone, Copy, Debug, PartialEq, Eq)]
pub struct UnknownNumber(
    /// The number.
    pub u8,
);

impl fmt::Display for UnknownNumber {
    fn fmt(&self, f: &mut fmt::Formatter<'_>) -> fmt::Result {
        write!(f, "{} is not in the table of numbers", self.0)
    }
}

impl core::error::Error for UnknownNumber {}
