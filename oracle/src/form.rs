//! What a payload is read as.

#[derive(Clone, Copy, Debug, PartialEq, Eq)]
pub enum Form {
    /// One of the twelve messages, by its number.
    Message(u8),
    /// A descriptor alone.
    Desc,
}

/// All of them.
pub const FORMS: [Form; 13] = [
    Form::Message(1),
    Form::Message(2),
    Form::Message(3),
    Form::Message(4),
    Form::Message(5),
    Form::Message(6),
    Form::Message(7),
    Form::Message(8),
    Form::Message(9),
    Form::Message(10),
    Form::Message(11),
    Form::Message(12),
    Form::Desc,
];

const NAMES: [&str; 13] = [
    "1 startup",
    "2 ready",
    "3 error",
    "4 complete",
    "5 ids",
    "6 types",
    "7 control",
    "8 control reply",
    "9 profile",
    "10 page",
    "11 fetch",
    "12 listing digest",
    "descriptor",
];

/// The refusals that the original has for each, with the field that a 9 names.
const REFUSALS: [&[(u64, u64)]; 13] = [
    &[
        (1, 0),
        (2, 0),
        (3, 0),
        (4, 0),
        (5, 0),
        (9, 1),
        (9, 2),
        (10, 0),
    ],
    &[(1, 0), (2, 0), (3, 0), (9, 2), (10, 0)],
    &[(1, 0), (2, 0), (3, 0), (4, 0), (5, 0), (9, 3)],
    &[(1, 0), (2, 0), (3, 0), (10, 0)],
    &[(1, 0), (2, 0), (3, 0)],
    &[
        (1, 0),
        (2, 0),
        (3, 0),
        (4, 0),
        (5, 0),
        (6, 0),
        (7, 0),
        (11, 0),
    ],
    &[
        (1, 0),
        (2, 0),
        (3, 0),
        (4, 0),
        (5, 0),
        (9, 4),
        (9, 5),
        (10, 0),
    ],
    &[
        (1, 0),
        (2, 0),
        (3, 0),
        (4, 0),
        (5, 0),
        (9, 4),
        (9, 6),
        (10, 0),
    ],
    &[(1, 0), (2, 0), (3, 0), (4, 0), (5, 0), (9, 7), (10, 0)],
    &[(1, 0), (4, 0)],
    &[
        (1, 0),
        (2, 0),
        (3, 0),
        (8, 0),
        (10, 0),
        (11, 0),
        (12, 0),
        (13, 0),
    ],
    &[(1, 0), (2, 0), (3, 0), (10, 0), (14, 0)],
    &[
        (1, 0),
        (2, 0),
        (3, 0),
        (4, 0),
        (5, 0),
        (6, 0),
        (7, 0),
        (11, 0),
    ],
];

impl Form {
    /// The message's number; a descriptor alone has none.
    pub fn number(self) -> u64 {
        match self {
            Form::Message(n) => u64::from(n),
            Form::Desc => 0,
        }
    }

    /// The form that an entry of a kind table names; an opaque payload has none.
    pub fn named(entry: u8) -> Option<Form> {
        (1..=12).contains(&entry).then_some(Form::Message(entry))
    }

    /// Its place in `FORMS`.
    pub fn place(self) -> usize {
        match self {
            Form::Message(n) => usize::from(n) - 1,
            Form::Desc => 12,
        }
    }

    pub fn name(self) -> &'static str {
        NAMES[self.place()]
    }

    /// The refusals that a comparison should meet, each a number and, for a 9, which field.
    pub fn refusals(self) -> &'static [(u64, u64)] {
        REFUSALS[self.place()]
    }

    /// Does it hold descriptors?
    pub fn has_descs(self) -> bool {
        self == Form::Desc || self == Form::Message(6)
    }
}
