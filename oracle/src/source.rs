//! Where inputs come from: the grammar, another form's grammar or noise, and then damage.
use crate::damage::damage;
use crate::form::{Form, FORMS};
use crate::grammar::{self, noise};
use crate::rng::Rng;
use crate::runs::Run;
use fjord_wire::frame::{encode_frame, FrameKind, StreamId};

pub struct Source {
    rng: Rng,
    /// The payload before of each form, to splice with.
    last: [Vec<u8>; FORMS.len()],
}

impl Source {
    pub fn new(seed: u64) -> Source {
        Source {
            rng: Rng::new(seed),
            last: [const { Vec::new() }; FORMS.len()],
        }
    }

    /// A payload for this form; half of them are damaged.
    pub fn payload(&mut self, form: Form) -> Vec<u8> {
        let rng = &mut self.rng;
        let made = match rng.below(40) {
            0 => {
                let len = rng.below(12);
                noise(rng, len)
            }
            1 => {
                let other = rng.pick(&FORMS);
                grammar::payload(other, rng)
            }
            _ => grammar::payload(form, rng),
        };
        let place = form.place();
        let payload = match rng.once_in(2) {
            true => damage(made.clone(), &self.last[place], rng),
            false => made.clone(),
        };
        self.last[place] = made;
        payload
    }

    pub fn varint(&mut self) -> Vec<u8> {
        let varint = grammar::varint(&mut self.rng);
        match self.rng.once_in(2) {
            true => damage(varint, &[], &mut self.rng),
            false => varint,
        }
    }

    /// A frame of this payload, half of them damaged.
    pub fn frame(&mut self, payload: &[u8]) -> Vec<u8> {
        let frame = framed(self.rng.byte(), self.rng.bits() as u32, payload);
        match self.rng.once_in(2) {
            true => damage(frame, payload, &mut self.rng),
            false => frame,
        }
    }

    pub fn run(&mut self) -> Run {
        let table = self.table();
        let mut bytes = self.frames(&table);
        self.end(&mut bytes);
        let cuts = self.cuts(bytes.len());
        let rng = &mut self.rng;
        let hold = rng.pick(&[0, 16, 64, 400, 4000, 4000, 4000, 4000]);
        let lengths = [
            &[0, 20, 4000, 4000, 4000, 4000],
            &[0, 12, 600, 600, 600, 600],
            &[0, 40, 1400, 1400, 1400, 1400],
        ];
        let room = lengths.map(|lengths| rng.pick(lengths));
        Run {
            table,
            hold,
            room,
            bytes,
            cuts,
            offers_empty: rng.once_in(2),
        }
    }

    /// A kind table: over half of the kinds name a message.
    fn table(&mut self) -> [u8; 256] {
        [0; 256].map(|_| match self.rng.below(4) {
            0 => 0,
            1 => self.rng.byte(),
            _ => 1 + self.rng.below(12) as u8,
        })
    }

    fn frames(&mut self, table: &[u8; 256]) -> Vec<u8> {
        let mut bytes = Vec::new();
        for _ in 0..self.rng.below(6) {
            let kind = self.rng.byte();
            let payload = match Form::named(table[usize::from(kind)]) {
                Some(form) => self.payload(form),
                None => {
                    let len = self.rng.below(30);
                    noise(&mut self.rng, len)
                }
            };
            bytes.extend(framed(kind, self.rng.bits() as u32, &payload));
        }
        bytes
    }

    /// Half of the runs do not end with a frame: they are cut off, go on with a header of any length, or are damaged.
    fn end(&mut self, bytes: &mut Vec<u8>) {
        let rng = &mut self.rng;
        match rng.below(6) {
            0 => bytes.truncate(rng.below(bytes.len() + 1)),
            1 => {
                let length = rng.pick(&[0, 1, 5, 3000, 67_108_864, 67_108_865, u32::MAX]);
                bytes.extend([rng.byte(), 1, 0, 0, 0]);
                bytes.extend(length.to_le_bytes());
                bytes.extend([1, 2, 3]);
            }
            2 => *bytes = damage(std::mem::take(bytes), &[], rng),
            _ => {}
        }
    }

    /// A few cuts, equal ones among them, or one after each byte.
    fn cuts(&mut self, len: usize) -> Vec<usize> {
        let rng = &mut self.rng;
        if len < 300 && rng.once_in(12) {
            return (0..=len).collect();
        }
        let count = rng.below(8);
        let mut cuts: Vec<_> = (0..count).map(|_| rng.below(len + 1)).collect();
        cuts.sort_unstable();
        cuts
    }
}

/// A frame, by the original.
pub fn framed(kind: u8, stream: u32, payload: &[u8]) -> Vec<u8> {
    let mut out = Vec::new();
    encode_frame(&mut out, FrameKind(kind), StreamId(stream), payload).expect("a short payload");
    out
}
