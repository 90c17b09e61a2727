//! Payloads by the grammar of each message, with a part here and there that is not as it should be.
use crate::form::Form;
use crate::rng::Rng;

/// Numbers at whose sides something changes: the width of a varint, of 32 bits, of a fact id's halves, of a fetch.
pub const EDGES: [u64; 20] = [
    0,
    1,
    2,
    127,
    128,
    4096,
    4097,
    16_383,
    16_384,
    (1 << 24) - 1,
    1 << 24,
    (1 << 32) - 1,
    1 << 32,
    (1 << 40) - 1,
    1 << 40,
    (1 << 63) - 1,
    1 << 63,
    u64::MAX - 12,
    u64::MAX - 1,
    u64::MAX,
];

/// The first and the last character of each length, and on each side of the surrogates.
const GOOD_TEXTS: [&str; 14] = [
    "a",
    "name",
    "Insulin",
    "\0",
    "\u{7f}",
    "\u{80}",
    "\u{7ff}",
    "\u{800}",
    "\u{d7ff}",
    "\u{e000}",
    "\u{fffd}",
    "\u{ffff}",
    "\u{10000}",
    "\u{10ffff}",
];

/// What RFC 3629 has no place for: overlong forms, surrogates, numbers past the last, lone and missing continuations.
const BAD_TEXTS: [&[u8]; 20] = [
    &[0x80],
    &[0xbf],
    &[0xc0, 0x80],
    &[0xc1, 0xbf],
    &[0xc2],
    &[0xc2, 0x41],
    &[0xe0, 0x80, 0x80],
    &[0xe0, 0x9f, 0xbf],
    &[0xe2, 0x82],
    &[0xe2, 0x28, 0xa1],
    &[0xed, 0xa0, 0x80],
    &[0xed, 0xbf, 0xbf],
    &[0xf0, 0x80, 0x80, 0x80],
    &[0xf0, 0x8f, 0xbf, 0xbf],
    &[0xf0, 0x9f, 0x92],
    &[0xf4, 0x90, 0x80, 0x80],
    &[0xf5, 0x80, 0x80, 0x80],
    &[0xf8, 0x88, 0x80, 0x80, 0x80],
    &[0xfe],
    &[0xff],
];

/// Writes a payload part by part.
pub struct Maker<'a> {
    rng: &'a mut Rng,
    out: Vec<u8>,
    /// One part in so many is odd; 0 for none.
    odds: usize,
}

/// A payload of this form.
pub fn payload(form: Form, rng: &mut Rng) -> Vec<u8> {
    let odds = rng.pick(&[0, 0, 5, 12, 40]);
    let mut m = Maker {
        rng,
        out: Vec::new(),
        odds,
    };
    match form.number() {
        1 => m.startup(),
        2 => m.ready(),
        3 => m.error(),
        4 => m.complete(),
        5 => m.ids(),
        6 => m.types(),
        7 => m.control(),
        8 => m.reply(),
        9 => m.profile(),
        10 => m.page(),
        11 => m.fetch(),
        12 => m.listing_digest(),
        _ => m.root(),
    }
    m.out
}

/// A varint, good or not.
pub fn varint(rng: &mut Rng) -> Vec<u8> {
    let mut m = Maker {
        rng,
        out: Vec::new(),
        odds: 3,
    };
    let value = m.value();
    m.varint(value);
    m.out
}

/// Bytes that are random, or of the few that mean most.
pub fn noise(rng: &mut Rng, len: usize) -> Vec<u8> {
    let few = rng.once_in(2);
    let byte = |rng: &mut Rng| match few {
        true => rng.pick(&[0, 0, 1, 1, 2, 3, 4, 5, 0x61, 0x7f, 0x80, 0xc3, 0xff]),
        false => rng.byte(),
    };
    (0..len).map(|_| byte(rng)).collect()
}

impl Maker<'_> {
    fn is_odd(&mut self) -> bool {
        self.odds > 0 && self.rng.once_in(self.odds)
    }

    /// A number of any width: mostly small, often at an edge.
    fn value(&mut self) -> u64 {
        match self.rng.below(8) {
            0..=3 => self.rng.below(6) as u64,
            4 => self.rng.pick(&EDGES),
            5 => self
                .rng
                .pick(&EDGES)
                .wrapping_add(self.rng.below(3) as u64)
                .wrapping_sub(1),
            _ => {
                let width = self.rng.below(64);
                self.rng.bits() >> width
            }
        }
    }

    fn narrow(&mut self) -> u64 {
        self.value() & 0xffff_ffff
    }

    fn leb(&mut self, mut value: u64) {
        while value >= 0x80 {
            self.out.push(value as u8 | 0x80);
            value >>= 7;
        }
        self.out.push(value as u8);
    }

    /// A varint, or an odd one: another number, too long a form of it, one that never ends, one over 64 bits.
    fn varint(&mut self, value: u64) {
        if !self.is_odd() {
            return self.leb(value);
        }
        match self.rng.below(5) {
            0 | 1 => {
                let other = self.rng.pick(&EDGES);
                self.leb(other);
            }
            2 => {
                self.leb(value);
                let last = self.out.len() - 1;
                self.out[last] |= 0x80;
                self.out.extend(vec![0x80; self.rng.below(3)]);
                self.out.push(0);
            }
            3 => {
                let len = 8 + self.rng.below(4);
                self.out.extend(vec![self.rng.pick(&[0x80, 0xff]); len]);
            }
            _ => {
                self.out.extend([0xff; 9]);
                let last = self.rng.pick(&[0, 1, 2, 0x7f, 0x80, 0x81, 0x82]);
                self.out.push(last);
            }
        }
    }

    fn any(&mut self) {
        let value = self.value();
        self.varint(value);
    }

    fn letters(&mut self) -> Vec<u8> {
        let mut text = Vec::new();
        // Longer ones too: their length has two or three bytes, and characters stand at all distances from the start.
        let run = match self.rng.below(2000) {
            0 => 5500,
            1..=40 => 50,
            _ => 1,
        };
        for _ in 0..self.rng.below(4) {
            let odd = self.is_odd();
            text.extend(vec![b'n'; self.rng.below(run)]);
            let piece = match odd {
                true => self.rng.pick(&BAD_TEXTS),
                false => self.rng.pick(&GOOD_TEXTS).as_bytes(),
            };
            text.extend_from_slice(piece);
        }
        text
    }

    fn text(&mut self) {
        let text = self.letters();
        self.varint(text.len() as u64);
        self.out.extend(text);
    }

    /// One of the first bytes, or an odd one.
    fn byte(&mut self, from: u8, to: u8) {
        let odd = self.is_odd();
        let byte = match odd {
            true => self.rng.pick(&[0, 1, 2, 4, 12, 0x80, 0xff]),
            false => from + self.rng.below(usize::from(to - from) + 1) as u8,
        };
        self.out.push(byte);
    }

    /// How many things follow; declared otherwise where it is odd.
    fn count(&mut self) -> usize {
        let count = match self.rng.below(2000) {
            0 => self.rng.pick(&[200, 300, 4095, 4096, 4097]),
            1..=9 => 4 + self.rng.below(60),
            _ => self.rng.below(4),
        };
        let odd = self.is_odd();
        match odd {
            true => {
                let off = self.rng.pick(&[1, 2, u64::MAX]);
                self.leb((count as u64).wrapping_add(off));
            }
            false => self.varint(count as u64),
        }
        count
    }

    fn startup(&mut self) {
        let version = self.narrow();
        self.varint(version);
        self.text();
        self.byte(0, 1);
        self.any();
        for _ in 0..self.count() {
            self.text();
            self.any();
        }
    }

    fn ready(&mut self) {
        let version = self.narrow();
        self.varint(version);
        self.any();
        self.any();
    }

    fn error(&mut self) {
        self.byte(1, 11);
        self.text();
    }

    fn complete(&mut self) {
        self.any();
        self.any();
    }

    fn ids(&mut self) {
        for _ in 0..self.count() {
            self.any();
        }
    }

    fn types(&mut self) {
        for _ in 0..self.count().min(100) {
            let id = self.narrow();
            self.varint(id);
            self.text();
            self.any_flag();
            self.root();
            if self.any_flag() {
                self.root();
            }
        }
    }

    /// A flag that is a varint: any number but 0 is yes.
    fn any_flag(&mut self) -> bool {
        let value = self.rng.pick(&[0, 0, 0, 1, 1, 2, 128, u64::MAX]);
        self.varint(value);
        value != 0
    }

    fn control(&mut self) {
        self.byte(1, 3);
        self.text();
        self.byte(0, 2);
        self.text();
    }

    fn reply(&mut self) {
        let op = 1 + self.rng.below(3) as u8;
        self.byte(op, op);
        match op {
            1 => self.text(),
            2 => {
                self.any();
                self.any();
                self.any();
                self.byte(0, 2);
            }
            _ => {}
        }
    }

    fn profile(&mut self) {
        for _ in 0..self.count() {
            self.text();
            self.any();
            self.byte(0, 2);
        }
    }

    fn page(&mut self) {
        let limit = self.value();
        self.out.extend(limit.to_le_bytes());
        let len = self.rng.below(20);
        let cursor = noise(self.rng, len);
        let declared = match self.is_odd() {
            true => self.rng.pick(&EDGES) as u32,
            false => len as u32,
        };
        self.out.extend(declared.to_le_bytes());
        self.out.extend(cursor);
        let query = self.letters();
        self.out.extend(query);
    }

    fn fetch(&mut self) {
        let flag = self.rng.below(2) as u8;
        self.byte(flag, flag);
        if flag == 1 {
            self.any();
        }
        for _ in 0..self.count() {
            let (predicate, sequence) = (self.value(), self.value());
            let wide = self.rng.once_in(20);
            self.varint(if wide {
                predicate
            } else {
                predicate & 0xff_ffff
            });
            self.varint(if wide {
                sequence
            } else {
                sequence & 0xff_ffff_ffff
            });
        }
    }

    fn listing_digest(&mut self) {
        let predicate = self.narrow();
        self.varint(predicate);
        self.any();
    }

    /// A descriptor; now and then one that is about as deep as one may be.
    fn root(&mut self) {
        if self.rng.once_in(300) {
            let levels = 60 + self.rng.below(6);
            for _ in 0..levels {
                self.level();
            }
        }
        self.desc(3);
    }

    /// A record or a union of one entry, up to that entry's own descriptor.
    fn level(&mut self) {
        let union = self.rng.once_in(2);
        self.out.extend([3 + u8::from(union), 1, 0]);
        if union {
            self.out.push(7);
        }
    }

    fn desc(&mut self, levels: usize) {
        let tags: &[u64] = if levels > 0 {
            &[0, 1, 2, 3, 3, 4, 4, 5]
        } else {
            &[0, 1, 2, 5]
        };
        let tag = self.rng.pick(tags);
        let unknown = self.rng.pick(&[6, 7, 128, u64::MAX]);
        let odd = self.is_odd();
        self.varint(if odd { unknown } else { tag });
        if tag == 2 {
            let predicate = self.narrow();
            self.varint(predicate);
        }
        if tag == 3 || tag == 4 {
            for _ in 0..self.count().min(70) {
                self.text();
                if tag == 4 {
                    let disc = self.narrow();
                    self.varint(disc);
                }
                self.desc(levels - 1);
            }
        }
    }
}
