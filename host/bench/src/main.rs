//! Time of the proved library beside the original Rust on the same bytes, both release, turn by turn in one run: the best of several rounds.
//!
//! Messages and the receiver, then the functions below them. The library is lent buffers of the message's own size, and of 64 KiB (or the message's size where that is more), which it clears behind the message. All is
//! measured several times over; a row is of the run with the median ratio.
mod payloads;
mod session;
mod texts;

use fjord_gateway::ffi;
use payloads::Sample;
use std::hint::black_box;
use std::time::{Duration, Instant};

/// How long a round of one side takes at least.
const ROUND: Duration = Duration::from_millis(4);
const ROUNDS: usize = 15;

/// Nanoseconds a call in one round of `turns`.
fn round(f: &mut dyn FnMut(), turns: u32) -> f64 {
    let start = Instant::now();
    for _ in 0..turns {
        f();
    }
    start.elapsed().as_nanos() as f64 / f64::from(turns)
}

/// Turns that take about a round.
fn turns(f: &mut dyn FnMut()) -> u32 {
    let mut n = 1;
    loop {
        let start = Instant::now();
        for _ in 0..n {
            f();
        }
        if start.elapsed() >= ROUND || n > 1 << 24 {
            return n;
        }
        n *= 2;
    }
}

/// The best round of each side, turn by turn, so that a slower moment of the machine meets all.
pub fn best(sides: &mut [&mut dyn FnMut()]) -> Vec<f64> {
    let counts: Vec<u32> = sides.iter_mut().map(|f| turns(f)).collect();
    let mut least = vec![f64::MAX; sides.len()];
    for _ in 0..ROUNDS {
        for (i, f) in sides.iter_mut().enumerate() {
            least[i] = least[i].min(round(f, counts[i]));
        }
    }
    least
}

/// A row of a table: what was measured, and the nanoseconds of the sides in each run: Rust's, the library's, and the library's with larger memory where
/// that makes a difference.
struct Row {
    what: String,
    runs: Vec<Vec<f64>>,
}

/// A table: its heading, and its rows in the order in which they were first measured.
pub struct Table {
    heading: String,
    rows: Vec<Row>,
}

impl Table {
    pub fn new(heading: String) -> Self {
        Table { heading, rows: Vec::new() }
    }

    /// Adds a run to the row of this name.
    pub fn add(&mut self, what: String, times: &[f64]) {
        let times = times.to_vec();
        match self.rows.iter_mut().find(|row| row.what == what) {
            Some(row) => row.runs.push(times),
            None => self.rows.push(Row { what, runs: vec![times] }),
        }
    }

    /// Each row by its run with the median ratio, and the least and the greatest ratio beside it.
    fn print(mut self) {
        println!("\n| {} |\n|{}", self.heading, "---|".repeat(self.heading.split(" | ").count()));
        for row in &mut self.rows {
            let ratio = |times: &Vec<f64>| times[1] / times[0];
            row.runs.sort_by(|a, b| ratio(a).total_cmp(&ratio(b)));
            let median = &row.runs[row.runs.len() / 2];
            let digits = if median[0] < 100.0 { 1 } else { 0 };
            let times: String = median.iter().map(|t| format!("{t:.digits$} | ")).collect();
            let (least, greatest) = (ratio(&row.runs[0]), ratio(&row.runs[row.runs.len() - 1]));
            let larger = median.get(2).map_or(String::new(), |t| format!(" {:.2} |", t / median[0]));
            println!("| {} | {times}**{:.2}** | {least:.2} to {greatest:.2} |{larger}", row.what, ratio(median));
        }
    }
}

/// The three buffers, at the message's size or larger.
struct Lent {
    text: Vec<u8>,
    rows: Vec<u64>,
    nodes: Vec<u64>,
    answer: ffi::Answer,
}

impl Lent {
    fn new(text: usize, rows: usize, nodes: usize) -> Self {
        Lent { text: vec![0; text], rows: vec![0; rows], nodes: vec![0; nodes], answer: [0; 16] }
    }

    /// The least that the message fits, by what the library asks for.
    fn exact(entry: u64, payload: &[u8]) -> Self {
        let mut lent = Lent::new(0, 0, 0);
        loop {
            let answer = *lent.decode(entry, payload);
            match (answer[0], answer[1]) {
                (0, _) => return lent,
                (16, 1) => lent.text.resize(answer[2] as usize, 0),
                (16, 2) => lent.rows.resize(answer[2] as usize, 0),
                (16, 3) => lent.nodes.resize(answer[2] as usize, 0),
                _ => panic!("a sample is a message: {answer:?}"),
            }
        }
    }

    /// 64 KiB each, or the message's size.
    fn large(&self) -> Self {
        Lent::new(self.text.len().max(65536), self.rows.len().max(8192), self.nodes.len().max(8192))
    }

    fn decode(&mut self, entry: u64, payload: &[u8]) -> &ffi::Answer {
        // SAFETY: each pointer comes with its length.
        unsafe {
            ffi::fjord_decode(
                entry,
                payload.as_ptr(),
                payload.len(),
                self.text.as_mut_ptr(),
                self.text.len(),
                self.rows.as_mut_ptr(),
                self.rows.len(),
                self.nodes.as_mut_ptr(),
                self.nodes.len(),
                &mut self.answer,
            )
        };
        &self.answer
    }

    fn encode(&self, number: u64, fields: &[u64; 6], out: &mut [u8], answer: &mut ffi::Answer) -> u64 {
        // SAFETY: each pointer comes with its length.
        unsafe {
            ffi::fjord_encode(
                number,
                fields,
                self.text.as_ptr(),
                self.text.len(),
                self.rows.as_ptr(),
                self.rows.len(),
                self.nodes.as_ptr(),
                self.nodes.len(),
                out.as_mut_ptr(),
                out.len(),
                answer,
            )
        }
    }
}

fn decoding(samples: &[Sample], table: &mut Table) {
    for s in samples {
        let mut own = Lent::exact(s.number, &s.payload);
        let mut large = own.large();
        let times = best(&mut [
            &mut || (s.decode)(black_box(&s.payload)),
            &mut || {
                black_box(own.decode(s.number, black_box(&s.payload)));
            },
            &mut || {
                black_box(large.decode(s.number, black_box(&s.payload)));
            },
        ]);
        table.add(format!("{}, {} bytes", s.name, s.payload.len()), &times);
    }
}

fn encoding(samples: &[Sample], table: &mut Table) {
    for s in samples {
        let mut own = Lent::exact(s.number, &s.payload);
        let answer = *own.decode(s.number, &s.payload);
        let fields: [u64; 6] = answer[8..14].try_into().expect("six fields");
        let mut out = vec![0; s.payload.len()];
        let mut large = vec![0; s.payload.len().max(65536)];
        let (mut answer, mut other) = ([0; 16], [0; 16]);
        assert_eq!(own.encode(s.number, &fields, &mut out, &mut answer), 0);
        assert_eq!(out, s.payload, "{}", s.name);
        let encode = (s.encode)(&s.payload);
        assert_eq!(encode(), s.payload, "{}", s.name);
        let times = best(&mut [
            &mut || {
                black_box(encode());
            },
            &mut || {
                black_box(own.encode(s.number, black_box(&fields), &mut out, &mut answer));
            },
            &mut || {
                black_box(own.encode(s.number, black_box(&fields), &mut large, &mut other));
            },
        ]);
        table.add(format!("{}, {} bytes", s.name, s.payload.len()), &times);
    }
}

/// The argument is how often all is measured, 5 without one.
fn main() {
    let runs = std::env::args().nth(1).map_or(5, |n| n.parse().expect("how many runs"));
    let samples = payloads::samples();
    let session = session::Session::new(&samples);
    let spread = "ratio | least to greatest";
    let sides = format!("Rust ns | at the message's size | at 64 KiB | {spread} | ratio with the larger memory");
    let mut decode = Table::new(format!("decode | {sides}"));
    let mut encode = Table::new(format!("encode | {sides}"));
    let mut receive = Table::new(format!("{} | {spread} | ratio with the larger memory", session.heading()));
    let mut test = Table::new(format!("UTF-8 | `from_utf8` ns | `is_utf8` | {spread}"));
    let mut store = Table::new(format!("store | Rust ns | the library's | {spread}"));
    for _ in 0..runs {
        decoding(&samples, &mut decode);
        encoding(&samples, &mut encode);
        session.receiving(&mut receive);
        texts::testing(&mut test);
        texts::storing(&mut store);
    }
    for table in [decode, encode, receive, test, store] {
        table.print();
    }
}
