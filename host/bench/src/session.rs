//! The receiver over a session of frames, in one piece and cut.
use crate::payloads::Sample;
use crate::{best, Lent, Table};
use fjord_gateway::{encode_frame, KindTable, Memory, MessageKind, Receiver};
use fjord_wire::frame;
use std::hint::black_box;

/// What a reader over the original does with a piece: keeps the bytes, and decodes each frame that is whole.
struct Gathering<'s> {
    samples: &'s [Sample],
    bytes: Vec<u8>,
}

impl Gathering<'_> {
    fn take(&mut self, piece: &[u8]) {
        self.bytes.extend_from_slice(piece);
        let mut at = 0;
        while let Ok((header, payload, used)) = frame::decode_frame(&self.bytes[at..]) {
            if let Some(s) = self.samples.iter().find(|s| s.kind == header.kind.0) {
                (s.decode)(payload);
            }
            at += used;
        }
        self.bytes.drain(..at);
    }
}

/// The samples as frames of one run, and what its longest message needs of each buffer.
pub struct Session<'s> {
    samples: &'s [Sample],
    run: Vec<u8>,
    table: KindTable,
    hold: usize,
    needed: [usize; 3],
}

impl<'s> Session<'s> {
    pub fn new(samples: &'s [Sample]) -> Self {
        let mut session = Session { samples, run: Vec::new(), table: KindTable::opaque(), hold: 0, needed: [0; 3] };
        for s in samples {
            let mut out = vec![0; 9 + s.payload.len()];
            encode_frame(s.kind, 1, &s.payload, &mut out).expect("a sample fits");
            session.run.extend(out);
            let message = MessageKind::from_number(s.number).expect("a sample is one of twelve");
            session.table = session.table.with(s.kind, message);
            session.hold = session.hold.max(s.payload.len());
            let lent = Lent::exact(s.number, &s.payload);
            for (most, len) in session.needed.iter_mut().zip([lent.text.len(), lent.rows.len(), lent.nodes.len()]) {
                *most = len.max(*most);
            }
        }
        session
    }

    pub fn heading(&self) -> String {
        let (frames, bytes) = (self.samples.len(), self.run.len());
        format!("receiver, a session of {frames} frames, {bytes} bytes | Rust ns | at the longest frame's size | at 4 times it")
    }

    pub fn receiving(&self, table: &mut Table) {
        let [text, rows, nodes] = self.needed;
        for size in [self.run.len(), 1460, 1] {
            let mut gathering = Gathering { samples: self.samples, bytes: Vec::new() };
            let mut memories = [1, 4].map(|k| (vec![0; k * self.hold], Memory::new(k * text, k * rows, k * nodes)));
            let mut lent: Vec<Box<dyn FnMut() + '_>> = Vec::new();
            for (hold, memory) in &mut memories {
                let mut receiver = Receiver::open(&self.table, hold);
                lent.push(Box::new(move || {
                    for mut piece in self.run.chunks(size) {
                        while let Some(frame) = receiver.next(&mut piece, memory.lend()).expect("the run goes on") {
                            assert!(frame.message.is_ok());
                            black_box(&frame);
                        }
                    }
                }));
            }
            let (own, large) = lent.split_at_mut(1);
            let times = best(&mut [
                &mut || {
                    for piece in self.run.chunks(size) {
                        gathering.take(black_box(piece));
                    }
                },
                &mut own[0],
                &mut large[0],
            ]);
            table.add(format!("pieces of {size} bytes"), &times);
        }
    }
}
