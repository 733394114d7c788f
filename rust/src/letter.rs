//! The type letters of reads.
//!
//! A read's type is a byte, since any byte may be submitted; one that is not among these is answered
//! [`Number::Content`](crate::Number::Content).

macro_rules! letters {
    ($($name:ident = $letter:literal, $word:literal;)*) => {
        $(#[doc = concat!("The type of ", $word, " reads.")] pub const $name: u8 = $letter;)*

        /// Every type letter with its word, in the paper's order.
        pub const ALL: &[(u8, &str)] = &[$(($letter, $word),)*];
    };
}

letters! {
    INITIAL = b'I', "initial";
    OPENING = b'O', "opening";
    FINAL = b'F', "final";
    CYCLIC = b'C', "cyclic";
    CUSTOMER = b'U', "customer";
    AMR = b'R', "AMR";
    TRANSFER = b'T', "transfer";
    ESTIMATED_TRANSFER = b'S', "estimated transfer";
    DISCONNECTION = b'X', "disconnection";
    RECONNECTION = b'Y', "reconnection";
    END = b'E', "end";
}

/// The word of a type letter; `None` for any other byte.
pub fn word(letter: u8) -> Option<&'static str> {
    ALL.iter().find(|row| row.0 == letter).map(|row| row.1)
}
