//! A walk over the descriptors of a payload, to tell beforehand what the original would do that ends a program: it follows any depth, and it
//! reserves memory for as many entries as a count declares.
use crate::form::Form;
use fjord_wire::desc::Desc;
use fjord_wire::varint;
use std::mem::size_of;

/// "entering depth 65 is 15"
pub const MAX_DEPTH: usize = 64;

/// No payload is read by the original that makes it reserve more than this at a time.
const MAX_RESERVED: usize = 1 << 30;

/// A level of nesting costs a tag, a count and the length of a name.
pub const BYTES_PER_LEVEL: usize = 3;

/// Where the walk ends early.
#[derive(Debug, PartialEq, Eq)]
pub enum End {
    /// The original refuses, and nothing before that is out of bounds.
    Refused,
    /// Depth 65 is entered.
    Deep,
    /// A name's length whose sum with its place passes 2^64 − 1, and the bytes that are left.
    Wrapped(u64, u64),
    /// More is reserved than may be.
    Reserved,
}

struct Walk<'a> {
    bytes: &'a [u8],
    at: usize,
    reserved: usize,
}

/// Walks the payload as the form has it.
pub fn survey(form: Form, bytes: &[u8]) -> Result<(), End> {
    let mut walk = Walk {
        bytes,
        at: 0,
        reserved: 0,
    };
    match form {
        Form::Desc => walk.desc(1),
        Form::Message(6) => walk.types(),
        Form::Message(_) => Ok(()),
    }
}

impl Walk<'_> {
    fn left(&self) -> usize {
        self.bytes.len() - self.at
    }

    fn number(&mut self) -> Result<u64, End> {
        let (value, used) = varint::get_u64(&self.bytes[self.at..]).map_err(|_| End::Refused)?;
        self.at += used;
        Ok(value)
    }

    /// A number that is refused over 32 bits.
    fn narrow(&mut self) -> Result<(), End> {
        u32::try_from(self.number()?)
            .map(|_| ())
            .map_err(|_| End::Refused)
    }

    fn text(&mut self, len: u64) -> Result<(), End> {
        if len > self.left() as u64 {
            return Err(End::Refused);
        }
        let end = self.at + len as usize;
        std::str::from_utf8(&self.bytes[self.at..end]).map_err(|_| End::Refused)?;
        self.at = end;
        Ok(())
    }

    fn name(&mut self) -> Result<(), End> {
        let len = self.number()?;
        if (self.at as u64).checked_add(len).is_none() {
            return Err(End::Wrapped(len, self.left() as u64));
        }
        self.text(len)
    }

    fn types(&mut self) -> Result<(), End> {
        for _ in 0..self.number()? {
            self.narrow()?;
            let len = self.number()?;
            self.text(len)?;
            self.number()?;
            self.desc(1)?;
            if self.number()? != 0 {
                self.desc(1)?;
            }
        }
        Ok(())
    }

    fn desc(&mut self, depth: usize) -> Result<(), End> {
        if depth > MAX_DEPTH {
            return Err(End::Deep);
        }
        let available = self.left();
        match self.number()? {
            0 | 1 | 5 => Ok(()),
            2 => self.narrow(),
            3 => self.entries(available, size_of::<(String, Desc)>(), depth),
            4 => self.entries(available, size_of::<(String, u32, Desc)>(), depth),
            _ => Err(End::Refused),
        }
    }

    /// The fields of a record, or the alternatives of a union, which are larger and have a number each.
    fn entries(&mut self, available: usize, size: usize, depth: usize) -> Result<(), End> {
        let count = self.number()?;
        if count > available as u64 {
            return Err(End::Refused);
        }
        let reserved = count as usize * size;
        self.reserved += reserved;
        if self.reserved > MAX_RESERVED {
            return Err(End::Reserved);
        }
        for _ in 0..count {
            self.name()?;
            if size == size_of::<(String, u32, Desc)>() {
                self.narrow()?;
            }
            self.desc(depth + 1)?;
        }
        self.reserved -= reserved;
        Ok(())
    }
}

#[cfg(test)]
mod tests {
    use super::*;

    /// Records of one field each, so many of them, around an int.
    fn nested(levels: usize) -> Vec<u8> {
        [[3, 1, 0].repeat(levels), vec![0]].concat()
    }

    #[test]
    fn depth_65_is_told() {
        assert_eq!(survey(Form::Desc, &nested(MAX_DEPTH - 1)), Ok(()));
        assert_eq!(survey(Form::Desc, &nested(MAX_DEPTH)), Err(End::Deep));
        // also where no byte is left for it
        let cut = &nested(MAX_DEPTH)[..MAX_DEPTH * BYTES_PER_LEVEL];
        assert_eq!(survey(Form::Desc, cut), Err(End::Deep));
        // but not where the name before it is refused
        assert_eq!(survey(Form::Desc, &cut[..cut.len() - 1]), Err(End::Refused));
    }

    #[test]
    fn a_length_that_wraps_is_told() {
        let payload = [&[3, 1][..], &[0xff; 9], &[1, 0]].concat();
        assert_eq!(survey(Form::Desc, &payload), Err(End::Wrapped(u64::MAX, 1)));
        let in_a_type = [&[1, 0, 0, 0], &payload[..]].concat();
        assert_eq!(
            survey(Form::Message(6), &in_a_type),
            Err(End::Wrapped(u64::MAX, 1))
        );
    }

    #[test]
    fn memory_is_counted() {
        let mut payload = [3, 0x80, 0x80, 0x3c, 0].repeat(40);
        payload.resize(1 << 20, 0);
        assert_eq!(survey(Form::Desc, &payload), Err(End::Reserved));
    }
}
