//! One input given to both sides.
use crate::form::{Form, FORMS};
use crate::library::{Buffer, Lent};
use crate::verdict::Apart;
use crate::{coding, framing};

/// What the bytes of an input are read as.
#[derive(Clone, Copy, Debug, PartialEq, Eq)]
pub enum Subject {
    Payload(Form),
    Varint,
    Header,
    Frame,
}

/// How many subjects there are.
pub const SUBJECTS: usize = FORMS.len() + 3;

impl Subject {
    /// Its place among them.
    pub fn place(self) -> usize {
        match self {
            Subject::Payload(form) => form.place(),
            Subject::Varint => FORMS.len(),
            Subject::Header => FORMS.len() + 1,
            Subject::Frame => FORMS.len() + 2,
        }
    }
}

/// What the answer was, for counting.
#[derive(Clone, Copy, Debug, PartialEq, Eq)]
pub enum Class {
    Accepted,
    Refused(u64),
    Apart(Apart),
}

/// The class, and where the two sides differ, how.
pub type Seen = (Class, Result<(), String>);

/// Memory that is kept from input to input.
#[derive(Default)]
pub struct Desk {
    pub lent: Lent,
    pub out: Buffer<u8>,
}

/// Gives the bytes to both sides; what is read is also written again.
pub fn compare(subject: Subject, bytes: &[u8], desk: &mut Desk) -> Seen {
    match subject {
        Subject::Payload(form) => coding::payload(form, bytes, desk),
        Subject::Varint => framing::varint(bytes, desk),
        Subject::Header => framing::header(bytes),
        Subject::Frame => framing::frame(bytes, desk),
    }
}
