//! The language of a scenario: one call a line, its word and then its fields, each a name and a value.

use super::dates::day_number;
use necktureen::{indicator, letter, Call, Submission, MISSING};

/// A call of the language. A new call is one more row of [`FORMS`].
pub struct Form {
    word: &'static str,
    /// The fields that a line must have.
    fields: &'static [&'static str],
    /// Those that it may have.
    optional: &'static [&'static str],
    /// A line as one would write it.
    pub example: &'static str,
    call: fn(&Fields) -> Result<Call, String>,
}

pub const FORMS: &[Form] = &[
    Form {
        word: "enrol",
        fields: &["place", "dials", "capacity"],
        optional: &[],
        example: "enrol place 0 dials 4 capacity 5000",
        call: |fields| {
            let (place, dials) = (fields.two("place")?, fields.byte("dials")?);
            Ok(Call::Enrol { place, dials, capacity: fields.four("capacity")? })
        },
    },
    Form {
        word: "enrol-pseudo",
        fields: &["place", "dials", "capacity"],
        optional: &[],
        example: "enrol-pseudo place 0 dials 4 capacity 5000",
        call: |fields| {
            let (place, dials) = (fields.two("place")?, fields.byte("dials")?);
            Ok(Call::EnrolPseudo { place, dials, capacity: fields.four("capacity")? })
        },
    },
    Form {
        word: "submit",
        fields: &["place", "submitted", "day", "type", "value"],
        optional: &["indicator", "re-read"],
        example: "submit place 0 submitted 2000-06-15 day 2000-06-01 type C value 1060 indicator true re-read yes",
        call: |fields| Ok(Call::Submit { place: fields.two("place")?, read: fields.read()? }),
    },
    Form {
        word: "trial",
        fields: &["place", "submitted", "day", "type", "value"],
        optional: &["indicator", "re-read"],
        example: "trial place 0 submitted 2000-06-15 day 2000-06-01 type C value 1060 indicator true re-read yes",
        call: |fields| Ok(Call::Trial { place: fields.two("place")?, read: fields.read()? }),
    },
    Form {
        word: "withdraw",
        fields: &["place", "day", "value"],
        optional: &[],
        example: "withdraw place 0 day 2000-06-01 value 1060",
        call: |fields| {
            let (place, day) = (fields.two("place")?, fields.day("day")?);
            Ok(Call::Withdraw { place, day, value: fields.value()? })
        },
    },
    Form {
        word: "report",
        fields: &["place"],
        optional: &[],
        example: "report place 0",
        call: |fields| Ok(Call::Report { place: fields.two("place")? }),
    },
    Form {
        word: "fold",
        fields: &["place"],
        optional: &[],
        example: "fold place 0",
        call: |fields| Ok(Call::Fold { place: fields.two("place")? }),
    },
];

/// The call of a line, none for an empty line or a comment, or what is wrong with it.
pub fn call(line: &str) -> Result<Option<Call>, String> {
    let mut words = line.split('#').next().unwrap_or("").split_whitespace();
    let Some(word) = words.next() else {
        return Ok(None);
    };
    let form = FORMS.iter().find(|form| form.word == word).ok_or_else(|| {
        let known: Vec<&str> = FORMS.iter().map(|form| form.word).collect();
        format!("'{word}' is not a call; a line begins with one of: {}", known.join(", "))
    })?;
    let fields = Fields::of(form, words)?;
    (form.call)(&fields).map(Some)
}

/// The fields of a line, by name.
struct Fields<'a>(Vec<(&'a str, &'a str)>);

impl<'a> Fields<'a> {
    fn of(form: &Form, mut words: impl Iterator<Item = &'a str>) -> Result<Fields<'a>, String> {
        let mut fields = Fields(Vec::new());
        while let Some(name) = words.next() {
            if !form.fields.contains(&name) && !form.optional.contains(&name) {
                let known = [form.fields, form.optional].concat().join(", ");
                return Err(format!("'{name}' is not a field of {}; it has: {known}", form.word));
            }
            if fields.given(name).is_some() {
                return Err(format!("{name} is given twice"));
            }
            let value = words.next().ok_or_else(|| format!("{name} has no value after it"))?;
            fields.0.push((name, value));
        }
        match form.fields.iter().find(|name| fields.given(name).is_none()) {
            Some(name) => Err(format!("{} lacks '{name}'; a whole line is: {}", form.word, form.example)),
            None => Ok(fields),
        }
    }

    fn given(&self, name: &str) -> Option<&'a str> {
        self.0.iter().find(|field| field.0 == name).map(|field| field.1)
    }

    /// A whole number up to a limit; 0 where the field is not given.
    fn number(&self, name: &str, most: u32, words: &str) -> Result<u32, String> {
        let text = self.given(name).unwrap_or("0");
        let digits = text.bytes().all(|byte| byte.is_ascii_digit());
        match text.parse() {
            Ok(number) if digits && number <= most => Ok(number),
            _ => Err(format!("{name} is {words}a whole number from 0 to {most}, not '{text}'")),
        }
    }

    fn byte(&self, name: &str) -> Result<u8, String> {
        self.byte_or(name, "")
    }

    fn byte_or(&self, name: &str, words: &str) -> Result<u8, String> {
        Ok(self.number(name, u8::MAX.into(), words)? as u8)
    }

    fn two(&self, name: &str) -> Result<u16, String> {
        Ok(self.number(name, u16::MAX.into(), "")? as u16)
    }

    fn four(&self, name: &str) -> Result<u32, String> {
        self.number(name, u32::MAX, "")
    }

    /// A day number, or a date.
    fn day(&self, name: &str) -> Result<u16, String> {
        match self.given(name) {
            Some(date) if date.contains('-') => day_number(date).map_err(|fault| format!("{name}: {fault}")),
            _ => Ok(self.number(name, u16::MAX.into(), "a date such as 2000-06-15 or ")? as u16),
        }
    }

    fn value(&self) -> Result<u32, String> {
        match self.given("value") {
            Some("missing") => Ok(MISSING),
            _ => self.number("value", u32::MAX, "missing or "),
        }
    }

    /// A letter, its word, or the number of any byte.
    fn letter(&self) -> Result<u8, String> {
        let text = self.given("type").unwrap_or("");
        match text.as_bytes() {
            [letter] if !letter.is_ascii_digit() => Ok(*letter),
            _ => match letter::ALL.iter().find(|row| row.1.replace(' ', "-") == text) {
                Some(row) => Ok(row.0),
                None => self.byte_or("type", "a letter such as C, its word such as cyclic, or "),
            },
        }
    }

    fn indicator(&self) -> Result<u8, String> {
        match self.given("indicator") {
            Some("true") => Ok(indicator::TRUE),
            Some("false") => Ok(indicator::FALSE),
            Some("not-set") => Ok(indicator::NOT_SET),
            _ => self.byte_or("indicator", "true, false, not-set or "),
        }
    }

    fn reread(&self) -> Result<u8, String> {
        match self.given("re-read") {
            Some("yes") => Ok(1),
            Some("no") => Ok(0),
            _ => self.byte_or("re-read", "yes, no or "),
        }
    }

    fn read(&self) -> Result<Submission, String> {
        Ok(Submission {
            submitted: self.day("submitted")?,
            day: self.day("day")?,
            value: self.value()?,
            letter: self.letter()?,
            indicator: self.indicator()?,
            reread: self.reread()?,
        })
    }
}
