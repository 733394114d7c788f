//! The rollover indicator of a read: what the sender says of the dials having passed all nines.
//!
//! It is a byte, since any byte may be submitted; one above 2 is answered [`Number::Content`](crate::Number::Content).

/// Nothing is said.
pub const NOT_SET: u8 = 0;

/// The dials did not pass all nines.
pub const FALSE: u8 = 1;

/// The dials passed all nines.
pub const TRUE: u8 = 2;

/// Every indicator with its word.
pub const ALL: &[(u8, &str)] = &[(NOT_SET, "not set"), (FALSE, "false"), (TRUE, "true")];

/// The word of an indicator; `None` for any other byte.
pub fn word(indicator: u8) -> Option<&'static str> {
    ALL.iter().find(|row| row.0 == indicator).map(|row| row.1)
}
