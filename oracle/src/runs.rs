//! Runs of frames, cut anywhere and offered to a receiver, against the original's reading of the whole run.
use crate::coding::same;
use crate::form::Form;
use crate::layout::Layout;
use crate::library::{self, Buffer, Lent, Parts, Receiver, Reply, DIRT, NUMBER_DIRT};
use crate::refusal::{refusal_of, too_small, Refusal};
use crate::verdict::{verdict, Verdict};
use fjord_wire::frame::{decode_frame, FrameHeader, HEADER_LEN};
use fjord_wire::WireError;

/// The hold's number among the lent buffers.
const HOLD: usize = 4;

/// What an offer returns.
const MORE: u64 = 0;
const HANDED: u64 = 1;
const STOPPED: u64 = 2;
const DECLINED: u64 = 3;

/// A run, what it is offered with, and where it is cut.
#[derive(Clone)]
pub struct Run {
    pub table: [u8; 256],
    pub hold: usize,
    /// Text, rows and nodes.
    pub room: [usize; 3],
    pub bytes: Vec<u8>,
    /// Places of the cuts, ascending; those past the end cut off empty pieces.
    pub cuts: Vec<usize>,
    /// Is the empty rest offered after a frame that ends its piece?
    pub offers_empty: bool,
}

/// What a run came to.
#[derive(Default)]
pub struct RunSeen {
    /// The refusal of each frame that was handed out, 0 for an accepted message or an opaque payload.
    pub frames: Vec<u64>,
    /// The stop's number, or 0.
    pub stop: u64,
}

/// What the reading of the whole run comes to next, and where it ends in the run.
enum Event<'a> {
    Frame(FrameHeader, &'a [u8]),
    Stop(Refusal),
}

/// The next frame or stop of a run from this place on; nothing where the rest is held.
fn next_event(bytes: &[u8], at: usize, hold: usize) -> Option<(usize, Event<'_>)> {
    let stop = |refusal| Some((at + HEADER_LEN, Event::Stop(refusal)));
    match decode_frame(&bytes[at..]) {
        Ok((h, _, _)) if h.length as usize > hold => stop(too_small(HOLD, h.length as usize)),
        Ok((header, payload, used)) => Some((at + used, Event::Frame(header, payload))),
        Err(WireError::UnexpectedEof) => None,
        Err(WireError::LengthOutOfRange { declared, .. }) if declared > hold as u64 => {
            stop(too_small(HOLD, declared as usize))
        }
        Err(WireError::LengthOutOfRange { .. }) => None,
        Err(e) => stop(refusal_of(&e)),
    }
}

/// What the receiver and the lent memory must be.
struct Model {
    receiver: Receiver,
    hold: Vec<u8>,
    text: Vec<u8>,
    rows: Vec<u64>,
    nodes: Vec<u64>,
}

impl Model {
    /// After the opening.
    fn new(run: &Run) -> Model {
        let mut receiver = Receiver::unopened();
        receiver.table = run.table;
        receiver.hold_len = run.hold as u64;
        Model {
            receiver,
            hold: vec![0; run.hold],
            text: vec![DIRT[0]; run.room[0]],
            rows: vec![NUMBER_DIRT[0]; run.room[1]],
            nodes: vec![NUMBER_DIRT[0]; run.room[2]],
        }
    }

    /// These bytes of a frame are held.
    fn holding(&mut self, bytes: &[u8]) {
        let (header, payload) = bytes.split_at(bytes.len().min(HEADER_LEN));
        self.receiver.header = [0; HEADER_LEN];
        self.receiver.header[..header.len()].copy_from_slice(header);
        self.receiver.header_len = header.len() as u64;
        self.receiver.payload_len = payload.len() as u64;
        self.hold.fill(0);
        self.hold[..payload.len()].copy_from_slice(payload);
    }

    fn stopped(&mut self, header: &[u8], refusal: Refusal) {
        self.holding(header);
        [
            self.receiver.stop,
            self.receiver.stop_a,
            self.receiver.stop_b,
        ] = refusal;
    }

    /// The message of a frame is put into text, rows and nodes, where they suffice.
    fn put(&mut self, laid: &Layout) -> Result<(), Refusal> {
        let room = [self.text.len(), self.rows.len(), self.nodes.len()];
        let needs = laid.needs();
        if let Some(short) = (0..3).find(|i| room[*i] < needs[*i]) {
            return Err(too_small(short + 1, needs[short]));
        }
        fill(&mut self.text, &laid.text);
        fill(&mut self.rows, &laid.rows);
        fill(&mut self.nodes, &laid.nodes);
        Ok(())
    }

    /// What is answered of a frame.
    fn handed(&mut self, header: &FrameHeader, payload: &[u8], used: u64) -> Result<Parts, String> {
        let head = [
            header.kind.0.into(),
            header.stream.0.into(),
            header.length.into(),
        ];
        let form = Form::named(self.receiver.table[usize::from(header.kind.0)]);
        let message = form.map_or(0, Form::number);
        let mut laid = Layout::joined();
        let read = match form.map(|form| verdict(form, payload)) {
            None => {
                let [start, len] = laid.put(payload);
                Ok([start, len, 0, 0, 0, 0])
            }
            Some(Verdict::Said(said)) => Ok(said.lay(&mut laid)),
            Some(Verdict::Refused(refusal) | Verdict::Apart(_, Some(refusal))) => Err(refusal),
            Some(Verdict::Apart(why, None)) => return Err(format!("a frame apart: {why:?}")),
        };
        let parts = Parts {
            used,
            head,
            message,
            ..Parts::default()
        };
        Ok(
            match read.and_then(|fields| self.put(&laid).map(|()| fields)) {
                Ok(fields) => Parts { fields, ..parts },
                Err(refusal) => Parts { refusal, ..parts },
            },
        )
    }
}

fn fill<T: Copy + Default>(cells: &mut [T], front: &[T]) {
    cells.fill(T::default());
    cells[..front.len()].copy_from_slice(front);
}

/// The library's side, and where both are in the run.
struct Driver<'a> {
    run: &'a Run,
    model: Model,
    receiver: Receiver,
    hold: Buffer<u8>,
    lent: Lent,
    /// The bytes used so far, and those up to the end of the last frame.
    at: usize,
    start: usize,
    seen: RunSeen,
}

/// Opens a receiver and offers it the run.
pub fn compare_run(run: &Run) -> Result<RunSeen, String> {
    let mut driver = opened(run)?;
    let ends = run
        .cuts
        .iter()
        .map(|cut| (*cut).min(run.bytes.len()))
        .chain([run.bytes.len()]);
    for end in ends {
        if driver.seen.stop == 0 {
            driver.piece(end)?;
        } else {
            driver.declined(end)?;
        }
    }
    Ok(driver.seen)
}

fn opened(run: &Run) -> Result<Driver<'_>, String> {
    let mut receiver = Receiver {
        table: [7; 256],
        header: [7; 9],
        header_len: 7,
        payload_len: 7,
        hold_len: 7,
        stop: 7,
        stop_a: 7,
        stop_b: 7,
    };
    let before = receiver;
    let mut hold = Buffer::default();
    hold.lend(run.hold, DIRT[0]);
    let short = library::open(&mut receiver, &run.table[1..], &mut hold);
    same(Reply::refused([18, 255, 0]), short, || {
        "opened with 255 entries".into()
    })?;
    if receiver != before || !hold.is_kept() {
        return Err("a refused opening wrote".into());
    }
    let reply = library::open(&mut receiver, &run.table, &mut hold);
    same(Reply::of(&Parts::default()), reply, || "opened".into())?;
    let mut lent = Lent::default();
    lent.lend(run.room, 0);
    let model = Model::new(run);
    let driver = Driver {
        run,
        model,
        receiver,
        hold,
        lent,
        at: 0,
        start: 0,
        seen: RunSeen::default(),
    };
    driver.stands("opened")?;
    Ok(driver)
}

impl Driver<'_> {
    /// Offers the run up to `end`: the rest again after each frame.
    fn piece(&mut self, end: usize) -> Result<(), String> {
        loop {
            let result = self.offered(end)?;
            if result != HANDED || (self.at == end && !self.run.offers_empty) {
                self.at = end;
                return Ok(());
            }
        }
    }

    /// One offer of what is left up to `end`.
    fn offered(&mut self, end: usize) -> Result<u64, String> {
        let want = match next_event(&self.run.bytes, self.start, self.run.hold) {
            Some((event_end, event)) if event_end <= end => self.met(event_end, event)?,
            _ => self.held(end),
        };
        let piece = &self.run.bytes[self.at..end];
        let reply = library::offer(&mut self.receiver, piece, &mut self.hold, &mut self.lent);
        let what = format!("offered bytes {} to {end}", self.at);
        same(want, reply, || what.clone())?;
        self.stands(&what)?;
        self.at += want.answer[3] as usize;
        Ok(want.result)
    }

    /// A frame or a stop in this offer.
    fn met(&mut self, end: usize, event: Event) -> Result<Reply, String> {
        let used = (end - self.at) as u64;
        let (result, parts) = match event {
            Event::Frame(header, payload) => {
                self.model.holding(&[]);
                let parts = self.model.handed(&header, payload, used)?;
                self.seen.frames.push(parts.refusal[0]);
                (HANDED, parts)
            }
            Event::Stop(refusal) => {
                self.model
                    .stopped(&self.run.bytes[self.start..end], refusal);
                self.seen.stop = refusal[0];
                (
                    STOPPED,
                    Parts {
                        refusal,
                        used,
                        ..Parts::default()
                    },
                )
            }
        };
        self.start = end;
        Ok(Reply {
            result,
            answer: parts.answer(),
        })
    }

    /// The whole piece is used, and more is wanted.
    fn held(&mut self, end: usize) -> Reply {
        self.model.holding(&self.run.bytes[self.start..end]);
        let used = (end - self.at) as u64;
        Reply {
            result: MORE,
            answer: Parts {
                used,
                ..Parts::default()
            }
            .answer(),
        }
    }

    /// "After a stop the run is over": each later piece is offered once, and none of it is used.
    fn declined(&mut self, end: usize) -> Result<(), String> {
        let r = self.model.receiver;
        let parts = Parts {
            refusal: [r.stop, r.stop_a, r.stop_b],
            ..Parts::default()
        };
        let want = Reply {
            result: DECLINED,
            answer: parts.answer(),
        };
        let piece = &self.run.bytes[self.at..end];
        self.at = end;
        let reply = library::offer(&mut self.receiver, piece, &mut self.hold, &mut self.lent);
        same(want, reply, || "offered after the stop".into())?;
        self.stands("offered after the stop")
    }

    /// Are the receiver and all memory as they must be?
    fn stands(&self, what: &str) -> Result<(), String> {
        if self.receiver != self.model.receiver {
            let (want, found) = (state(&self.model.receiver), state(&self.receiver));
            return Err(format!(
                "{what}, receiver:\n  reading {want}\n  library {found}"
            ));
        }
        let good = [
            (
                "hold",
                self.hold.lent() == self.model.hold && self.hold.is_guarded(),
            ),
            ("text", self.lent.text.lent() == self.model.text),
            ("rows", self.lent.rows.lent() == self.model.rows),
            ("nodes", self.lent.nodes.lent() == self.model.nodes),
            ("memory that was not lent", self.lent.is_guarded()),
        ];
        match good.iter().find(|(_, good)| !good) {
            Some((name, _)) => Err(format!("{what}: {name} is not as the reading leaves it")),
            None => Ok(()),
        }
    }
}

/// A receiver without its table, which is long.
fn state(r: &Receiver) -> String {
    format!(
        "header {:02x?} ({}), payload {}, hold {}, stop {} ({}, {})",
        r.header, r.header_len, r.payload_len, r.hold_len, r.stop, r.stop_a, r.stop_b
    )
}

#[cfg(test)]
mod tests {
    use super::*;

    /// Document 01's run for the lister, and one that stops, at every cut.
    #[test]
    fn runs_are_read() {
        let mut table = [0; 256];
        table[5] = 2;
        let frame = [5, 1, 0, 0, 0, 3, 0, 0, 0, 1, 0x2a, 0];
        let long = [5, 1, 0, 0, 0, 9, 0, 0, 0, 1];
        for cut in 0..22 {
            let bytes = [&frame[..], &long].concat();
            let run = Run {
                table,
                hold: 8,
                room: [0; 3],
                bytes,
                cuts: vec![cut, cut],
                offers_empty: cut % 2 == 0,
            };
            let seen = compare_run(&run).expect("no difference");
            assert_eq!((seen.frames, seen.stop), (vec![0], 16));
        }
    }
}
