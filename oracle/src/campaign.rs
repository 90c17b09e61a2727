//! Which inputs are compared, and what is kept of a difference.
use crate::form::{Form, FORMS};
use crate::framing::frame_written;
use crate::runs::{compare_run, Run};
use crate::shrink::shrink;
use crate::source::{framed, Source};
use crate::subject::{compare, Class, Desk, Subject};
use crate::tally::{Finding, Tally, HANDED, RUNS};
use crate::verdict::MAX_PAYLOAD;

/// How much is compared.
#[derive(Clone, Copy)]
pub struct Size {
    /// Generated payloads.
    pub payloads: u64,
    /// Every payload of up to so many bytes.
    pub bytes: usize,
}

/// Beside each so many payloads a varint and a frame; and, less often, a run of frames.
const PER_FRAME: u64 = 8;
const PER_RUN: u64 = 40;

pub struct Campaign {
    source: Source,
    tally: Tally,
    desk: Desk,
}

impl Campaign {
    pub fn new(seed: u64) -> Campaign {
        Campaign {
            source: Source::new(seed),
            tally: Tally::new(),
            desk: Desk::default(),
        }
    }

    pub fn run(mut self, size: Size) -> Tally {
        self.exhaust(size.bytes);
        self.at_the_maximum();
        for i in 0..size.payloads {
            let form = FORMS[(i % FORMS.len() as u64) as usize];
            let payload = self.source.payload(form);
            self.compare(Subject::Payload(form), &payload);
            if i % PER_FRAME == 0 {
                let (varint, frame) = (self.source.varint(), self.source.frame(&payload));
                self.compare(Subject::Varint, &varint);
                self.compare(Subject::Header, &frame);
                self.compare(Subject::Frame, &frame);
            }
            if i % PER_RUN == 0 {
                self.run_of_frames();
            }
        }
        self.tally
    }

    fn compare(&mut self, subject: Subject, bytes: &[u8]) {
        let (class, result) = compare(subject, bytes, &mut self.desk);
        let row = subject.place();
        self.tally.count(row, class);
        if result.is_ok() || !self.tally.differs(row) {
            return;
        }
        let desk = &mut self.desk;
        let small = shrink(bytes.to_vec(), |b| compare(subject, b, desk).1.is_err());
        let how = compare(subject, &small, desk).1.unwrap_err();
        let story = format!("{} bytes, {}\n{how}", small.len(), hex(&small));
        self.tally.keep(row, Finding::new(small.len(), story));
    }

    /// Every input of up to so many bytes, for all that reads bytes.
    fn exhaust(&mut self, longest: usize) {
        let others = [Subject::Varint, Subject::Header, Subject::Frame];
        let forms = FORMS.map(Subject::Payload);
        for len in 0..=longest {
            for n in 0..1u32 << (8 * len) {
                let bytes = &n.to_be_bytes()[4 - len..];
                for subject in forms.iter().chain(&others) {
                    self.compare(*subject, bytes);
                }
            }
        }
    }

    /// Payloads and frames of the greatest length, and of one byte more.
    fn at_the_maximum(&mut self) {
        for len in [MAX_PAYLOAD, MAX_PAYLOAD + 1] {
            let mut error = vec![b'a'; len];
            error[0] = 1;
            error[1..5].copy_from_slice(&[0, 1, 2, 3].map(|i| leb_digit(len - 5, i)));
            self.compare(Subject::Payload(Form::Message(3)), &error);
            let mut page = vec![0; len];
            page[10] = 2;
            self.compare(Subject::Payload(Form::Message(10)), &page);
        }
        self.compare(Subject::Frame, &framed(b'E', 7, &vec![9; MAX_PAYLOAD]));
        self.frame_too_long(&vec![9; MAX_PAYLOAD + 1]);
        self.compare(Subject::Payload(Form::Desc), &greedy());
    }

    /// Both sides refuse to write this frame.
    fn frame_too_long(&mut self, payload: &[u8]) {
        let row = Subject::Frame.place();
        self.tally.count(row, Class::Refused(12));
        if let Err(how) = frame_written(b'E', 7, payload, &mut self.desk) {
            self.tally.differs(row);
            let story = format!("a payload of {} bytes\n{how}", payload.len());
            self.tally.keep(row, Finding::new(payload.len(), story));
        }
    }

    fn run_of_frames(&mut self) {
        let run = self.source.run();
        match compare_run(&run) {
            Ok(seen) => {
                for number in seen.frames {
                    self.tally.count(HANDED, class(number));
                }
                self.tally.count(RUNS, class(seen.stop));
            }
            Err(_) => {
                self.tally.count(RUNS, Class::Accepted);
                if self.tally.differs(RUNS) {
                    self.tally.keep(RUNS, run_found(&smaller_run(run)));
                }
            }
        }
    }
}

fn class(number: u64) -> Class {
    match number {
        0 => Class::Accepted,
        n => Class::Refused(n),
    }
}

/// A run that differs with fewer bytes, then with fewer cuts, then with fewer kinds that name a message.
fn smaller_run(mut run: Run) -> Run {
    let with = |bytes: &[u8]| Run {
        bytes: bytes.to_vec(),
        ..run.clone()
    };
    run.bytes = shrink(run.bytes.clone(), |b| compare_run(&with(b)).is_err());
    for i in (0..run.cuts.len()).rev() {
        let mut fewer = run.clone();
        fewer.cuts.remove(i);
        if compare_run(&fewer).is_err() {
            run = fewer;
        }
    }
    for kind in 0..256 {
        let mut opaque = run.clone();
        opaque.table[kind] = 0;
        if compare_run(&opaque).is_err() {
            run = opaque;
        }
    }
    run
}

fn run_found(run: &Run) -> Finding {
    let how = compare_run(run).err().expect("a run that differs");
    let size = run.bytes.len();
    let entries = run.table.iter().enumerate();
    let named: Vec<_> = entries.filter(|(_, entry)| **entry != 0).collect();
    let (bytes, cuts, hold, room) = (hex(&run.bytes), &run.cuts, run.hold, run.room);
    let story = format!(
        "{size} bytes, {bytes}, cut at {cuts:?}, hold {hold}, text, rows, nodes {room:?}, kinds {named:?}\n{how}"
    );
    Finding::new(size, story)
}

/// A digit of a varint of four bytes.
fn leb_digit(value: usize, place: usize) -> u8 {
    (value >> (7 * place)) as u8 & 0x7f | if place < 3 { 0x80 } else { 0 }
}

/// Nested records that each declare a million fields, which the original would reserve memory for.
fn greedy() -> Vec<u8> {
    let mut payload = [3, 0xc0, 0x84, 0x3d, 0].repeat(60);
    payload.resize(1_100_000, 0);
    payload
}

/// Two digits for each byte, and `-` for no bytes.
pub fn hex(bytes: &[u8]) -> String {
    match bytes {
        [] => "-".into(),
        _ => bytes.iter().map(|b| format!("{b:02x}")).collect(),
    }
}
