//! A sample of the original's answers as lines for `crates/vectors`, which replays them without the original.
//!
//! A line is `REQUEST = ANSWER`. Bytes are hexadecimal, `-` where there are none; memory to be written is lent with every byte A5, and an answer
//! shows all of it.
use crate::campaign::hex;
use crate::form::{Form, FORMS};
use crate::grammar::{self, EDGES};
use crate::layout::Layout;
use crate::library::{DIRT, NUMBER_DIRT};
use crate::refusal::{refusal_of, too_small, Refusal};
use crate::rng::Rng;
use crate::said::Said;
use crate::source::Source;
use crate::verdict::{verdict, Verdict};
use fjord_wire::varint;
use std::collections::{BTreeMap, HashSet};
use std::fmt::Write;

/// The longest payload of a line, and how many payloads there are of each refusal and of accepted ones.
const LONGEST: usize = 60;
const EACH_REFUSED: usize = 16;
const EACH_ACCEPTED: usize = 40;

/// How many payloads of a form are tried.
const TRIES: usize = 2_000_000;

/// Payloads by what became of them: a refusal's number with, for a 9, the field; 0 for accepted.
type Sample = BTreeMap<(u64, u64), Vec<Vec<u8>>>;

/// Writes the lines, and says how many there are.
pub fn write(file: &str, seed: u64) -> Result<usize, String> {
    let mut lines = Lines::default();
    lines.title("Made by oracle/ with --vectors: each request, and what the original answers.");
    lines.varints(&mut Rng::new(seed));
    let mut source = Source::new(seed);
    for form in FORMS {
        for (key, payloads) in sample(form, &mut source)? {
            lines.title(&title(form, key));
            for (i, payload) in payloads.iter().enumerate() {
                lines.payload(form, payload, i);
            }
        }
    }
    std::fs::write(file, lines.text).map_err(|e| e.to_string())?;
    Ok(lines.seen.len())
}

fn title(form: Form, key: (u64, u64)) -> String {
    match key {
        (0, _) => format!("{}, accepted.", form.name()),
        (number, 0) => format!("{}, refused by {number}.", form.name()),
        (number, a) => format!("{}, refused by {number}({a}).", form.name()),
    }
}

/// Payloads of every refusal that the form has.
fn sample(form: Form, source: &mut Source) -> Result<Sample, String> {
    let mut sample = Sample::new();
    let wanted = |key: &(u64, u64)| {
        if key.0 == 0 {
            EACH_ACCEPTED
        } else {
            EACH_REFUSED
        }
    };
    let mut seen = HashSet::new();
    for key in form.refusals().iter().chain(&[(0, 0)]) {
        sample.insert(*key, Vec::new());
    }
    for _ in 0..TRIES {
        let payload = source.payload(form);
        let key = match verdict(form, &payload) {
            Verdict::Said(_) => (0, 0),
            Verdict::Refused([number, a, _]) => (number, if number == 9 { a } else { 0 }),
            Verdict::Apart(..) => continue,
        };
        let kept = sample.entry(key).or_default();
        if payload.len() <= LONGEST && kept.len() < wanted(&key) && seen.insert(payload.clone()) {
            kept.push(payload);
        }
        if sample.iter().all(|(key, kept)| kept.len() == wanted(key)) {
            break;
        }
    }
    match sample.iter().find(|(_, kept)| kept.is_empty()) {
        Some((key, _)) => Err(format!("none found: {}", title(form, *key))),
        None => Ok(sample),
    }
}

#[derive(Default)]
struct Lines {
    text: String,
    seen: HashSet<String>,
}

impl Lines {
    fn title(&mut self, title: &str) {
        let gap = if self.text.is_empty() { "" } else { "\n" };
        let _ = writeln!(self.text, "{gap}# {title}");
    }

    /// Each request once.
    fn line(&mut self, request: String, answer: String) {
        if !self.seen.contains(&request) {
            let _ = writeln!(self.text, "{request} = {answer}");
            self.seen.insert(request);
        }
    }

    fn payload(&mut self, form: Form, payload: &[u8], i: usize) {
        match verdict(form, payload) {
            Verdict::Said(said) => {
                self.accepted(form, payload, &said, i);
                self.encoded(form, &said, i);
            }
            Verdict::Refused(refusal) => {
                self.refused(form, payload, [i % 3, i % 2, i % 4], refusal)
            }
            Verdict::Apart(..) => {}
        }
    }

    /// In room as needed, in more, and in turns with one buffer too short.
    fn accepted(&mut self, form: Form, payload: &[u8], said: &Said, i: usize) {
        let mut laid = Layout::joined();
        let fields = said.lay(&mut laid);
        let needs = laid.needs();
        let more = i % 2;
        let answer = match form {
            Form::Message(n) => format!("accepted {n}{}", spaced(&fields)),
            Form::Desc => format!("used {}", said.used()),
        };
        laid.text.resize(needs[0] + more, 0);
        laid.rows.resize(needs[1] + 2 * more, 0);
        laid.nodes.resize(needs[2] + 3 * more, 0);
        self.line(
            decoding(form, payload, laid.needs()),
            answer + &memory(&laid),
        );
        let short = i % 3;
        if needs[short] > 0 {
            let mut room = needs;
            room[short] -= 1;
            self.refused(form, payload, room, too_small(short + 1, needs[short]));
        }
    }

    fn refused(&mut self, form: Form, payload: &[u8], room: [usize; 3], refusal: Refusal) {
        let mut kept = Layout::joined();
        kept.text = vec![DIRT[0]; room[0]];
        kept.rows = vec![NUMBER_DIRT[0]; room[1]];
        kept.nodes = vec![NUMBER_DIRT[0]; room[2]];
        self.line(
            decoding(form, payload, room),
            refused(refusal) + &memory(&kept),
        );
    }

    /// From joined and from scattered texts, into an out that is in turns one short, as needed and larger.
    fn encoded(&mut self, form: Form, said: &Said, i: usize) {
        let want = said.write();
        let mut laid = match i % 2 {
            0 => Layout::joined(),
            _ => Layout::scattered(Rng::of(&want)),
        };
        let fields = said.lay(&mut laid);
        laid.pad();
        let room = want.len() + i % 3 - usize::from(!want.is_empty());
        let request = match form {
            Form::Message(n) => {
                let rows = format!("{}{}", laid.rows.len(), spaced(&laid.rows));
                let fields = spaced(&fields);
                format!(
                    "encode {n}{fields} {} {room} {rows}{}",
                    hex(&laid.text),
                    spaced(&laid.nodes)
                )
            }
            Form::Desc => {
                format!(
                    "encode_desc {} {room}{}",
                    hex(&laid.text),
                    spaced(&laid.nodes)
                )
            }
        };
        self.line(request, written(&want, room));
    }

    fn varints(&mut self, rng: &mut Rng) {
        self.title("Varints: read, written, and as signed numbers.");
        let made: Vec<_> = (0..200).map(|_| grammar::varint(rng)).collect();
        for bytes in &made {
            let read = varint::get_u64(bytes).map(|(v, next)| format!("value {v} next {next}"));
            let signed = varint::get_i64(bytes).map(|(v, next)| format!("value {v} next {next}"));
            let refused = |e| refused(refusal_of(&e));
            self.line(
                format!("get_u64 0 {}", hex(bytes)),
                read.unwrap_or_else(refused),
            );
            self.line(
                format!("get_i64 0 {}", hex(bytes)),
                signed.unwrap_or_else(refused),
            );
        }
        let values = made
            .iter()
            .filter_map(|bytes| varint::get_u64(bytes).ok())
            .map(|(v, _)| v);
        for (i, value) in EDGES.into_iter().chain(values).enumerate() {
            let mut want = Vec::new();
            varint::put_u64(&mut want, value);
            let room = want.len() + i % 3 - 1;
            self.line(format!("encode_u64 {value} {room}"), written(&want, room));
            self.line(
                format!("len_u64 {value}"),
                varint::len_u64(value).to_string(),
            );
            let signed = varint::unzigzag(value);
            self.line(format!("unzigzag {value}"), signed.to_string());
            self.line(
                format!("zigzag {signed}"),
                varint::zigzag(signed).to_string(),
            );
        }
    }
}

fn decoding(form: Form, payload: &[u8], [text, rows, nodes]: [usize; 3]) -> String {
    let operation = match form {
        Form::Message(n) => format!("decode {n}"),
        Form::Desc => "decode_desc".into(),
    };
    format!("{operation} {} {text} {rows} {nodes}", hex(payload))
}

fn memory(m: &Layout) -> String {
    let (rows, nodes) = (spaced(&m.rows), spaced(&m.nodes));
    format!(" text {} rows{rows} nodes{nodes}", hex(&m.text))
}

fn refused([number, a, b]: Refusal) -> String {
    format!("refused {number} {a} {b}")
}

/// What a writer of these bytes answers, and its out.
fn written(want: &[u8], room: usize) -> String {
    if room < want.len() {
        let out = hex(&vec![DIRT[0]; room]);
        return format!("{} out {out}", refused(too_small(5, want.len())));
    }
    let mut out = want.to_vec();
    out.resize(room, 0);
    format!("wrote {} out {}", want.len(), hex(&out))
}

/// Numbers, each behind a space.
fn spaced(numbers: &[u64]) -> String {
    numbers.iter().map(|n| format!(" {n}")).collect()
}
