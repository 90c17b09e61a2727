//! Payloads: the decoders, and the encoders on what was decoded.
use crate::form::Form;
use crate::layout::Layout;
use crate::library::{self, Buffer, Lent, Parts, Reply, Request, DIRT};
use crate::refusal::{too_small, Refusal};
use crate::rng::Rng;
use crate::said::Said;
use crate::subject::{Class, Desk, Seen};
use crate::verdict::{verdict, Verdict};
use std::fmt::Debug;

/// Out's number among the lent buffers.
const OUT: usize = 5;

pub fn payload(form: Form, bytes: &[u8], desk: &mut Desk) -> Seen {
    let verdict = verdict(form, bytes);
    let class = match &verdict {
        Verdict::Said(_) => Class::Accepted,
        Verdict::Refused(refusal) => Class::Refused(refusal[0]),
        Verdict::Apart(why, _) => Class::Apart(*why),
    };
    (class, held_against(&verdict, form, bytes, desk))
}

/// Is the library's answer, in every room, what the verdict says?
pub fn held_against(
    verdict: &Verdict,
    form: Form,
    bytes: &[u8],
    desk: &mut Desk,
) -> Result<(), String> {
    match verdict {
        Verdict::Said(said) => {
            accepted(said, form, bytes, &mut desk.lent)?;
            encoded(said, form, Rng::of(bytes), &mut desk.out)
        }
        Verdict::Refused(refusal) | Verdict::Apart(_, Some(refusal)) => {
            refused(*refusal, form, bytes, &mut desk.lent)
        }
        Verdict::Apart(_, None) => Ok(()),
    }
}

/// Rooms of text, rows and nodes: as needed, larger, one short in each that is needed, and none at all.
fn accepted(said: &Said, form: Form, bytes: &[u8], lent: &mut Lent) -> Result<(), String> {
    let mut laid = Layout::joined();
    let fields = said.lay(&mut laid);
    let needs = laid.needs();
    let parts = Parts {
        used: said.used(),
        message: form.number(),
        fields,
        ..Parts::default()
    };
    let mut rng = Rng::of(bytes);
    let larger = needs.map(|n| n + rng.below(10));
    for (dirt, room) in [needs, larger].into_iter().enumerate() {
        lent.lend(room, dirt);
        let reply = library::decode(form, bytes, lent);
        same(Reply::of(&parts), reply, || {
            format!("decoded into {room:?}")
        })?;
        holds(lent, &laid, room)?;
    }
    for short in (0..3).filter(|i| needs[*i] > 0) {
        let mut room = needs;
        room[short] -= 1;
        refused_in(room, too_small(short + 1, needs[short]), form, bytes, lent)?;
    }
    match (0..3).find(|i| needs[*i] > 0) {
        Some(short) => refused_in(
            [0; 3],
            too_small(short + 1, needs[short]),
            form,
            bytes,
            lent,
        ),
        None => Ok(()),
    }
}

/// A refused payload writes nothing, whatever is lent.
fn refused(refusal: Refusal, form: Form, bytes: &[u8], lent: &mut Lent) -> Result<(), String> {
    refused_in([0; 3], refusal, form, bytes, lent)?;
    refused_in([bytes.len() % 64 + 1, 3, 7], refusal, form, bytes, lent)
}

fn refused_in(
    room: [usize; 3],
    refusal: Refusal,
    form: Form,
    bytes: &[u8],
    lent: &mut Lent,
) -> Result<(), String> {
    lent.lend(room, 0);
    let reply = library::decode(form, bytes, lent);
    let parts = Parts {
        refusal,
        message: form.number(),
        ..Parts::default()
    };
    same(Reply::of(&parts), reply, || {
        format!("decoded into {room:?}")
    })?;
    if lent.is_kept() {
        return Ok(());
    }
    Err(format!("refused, and {room:?} of lent memory was written"))
}

fn holds(lent: &Lent, laid: &Layout, room: [usize; 3]) -> Result<(), String> {
    differing(
        "text",
        lent.text.holds(&laid.text),
        &laid.text,
        lent.text.lent(),
        room,
    )?;
    differing(
        "rows",
        lent.rows.holds(&laid.rows),
        &laid.rows,
        lent.rows.lent(),
        room,
    )?;
    differing(
        "nodes",
        lent.nodes.holds(&laid.nodes),
        &laid.nodes,
        lent.nodes.lent(),
        room,
    )
}

fn differing<T: Debug>(
    name: &str,
    good: bool,
    want: &[T],
    found: &[T],
    room: [usize; 3],
) -> Result<(), String> {
    if good {
        return Ok(());
    }
    let (want, found) = (brief(want), brief(found));
    Err(format!(
        "decoded into {room:?}, {name}:\n  original {want}, then zeros\n  library  {found}"
    ))
}

/// The same message from joined texts into an out as needed and one short, and from scattered ones into a larger out.
fn encoded(said: &Said, form: Form, rng: Rng, out: &mut Buffer<u8>) -> Result<(), String> {
    let want = said.write();
    let joined = Layout::joined();
    encoded_from(joined, said, form, out, &want, want.len())?;
    if !want.is_empty() {
        encoded_from(Layout::joined(), said, form, out, &want, want.len() - 1)?;
    }
    let larger = want.len() + 1 + rng.clone().below(9);
    encoded_from(Layout::scattered(rng), said, form, out, &want, larger)
}

fn encoded_from(
    mut laid: Layout,
    said: &Said,
    form: Form,
    out: &mut Buffer<u8>,
    want: &[u8],
    room: usize,
) -> Result<(), String> {
    let fields = said.lay(&mut laid);
    laid.pad();
    out.lend(room, DIRT[room % 2]);
    let request = Request {
        fields,
        text: &laid.text,
        rows: &laid.rows,
        nodes: &laid.nodes,
    };
    let reply = library::encode(form, &request, out);
    written(want, reply, out).map_err(|how| {
        let (text, rows, nodes) = (brief(&laid.text), brief(&laid.rows), brief(&laid.nodes));
        format!("encoded from {fields:?}, text {text}, rows {rows}, nodes {nodes}, {how}")
    })
}

/// Did a writer give these bytes and zeros after them, or 16 where out is too small?
pub fn written(want: &[u8], reply: Reply, out: &Buffer<u8>) -> Result<(), String> {
    let room = out.lent().len();
    let what = || format!("into {room} bytes");
    if room < want.len() {
        same(Reply::refused(too_small(OUT, want.len())), reply, what)?;
        return if out.is_kept() {
            Ok(())
        } else {
            Err("refused, and out was written".into())
        };
    }
    let parts = Parts {
        used: want.len() as u64,
        ..Parts::default()
    };
    same(Reply::of(&parts), reply, what)?;
    if out.holds(want) {
        return Ok(());
    }
    let (want, found) = (brief(want), brief(out.lent()));
    Err(format!(
        "into {room} bytes:\n  original {want}, then zeros\n  library  {found}"
    ))
}

/// The first cells, which are enough to see.
fn brief<T: Debug>(cells: &[T]) -> String {
    let shown = &cells[..cells.len().min(64)];
    match cells.len() - shown.len() {
        0 => format!("{shown:?}"),
        more => format!("{shown:?} and {more} more"),
    }
}

/// Are both replies the same?
pub fn same(want: Reply, found: Reply, what: impl FnOnce() -> String) -> Result<(), String> {
    if want == found {
        return Ok(());
    }
    Err(format!(
        "{}:\n  original {want:?}\n  library  {found:?}",
        what()
    ))
}

#[cfg(test)]
mod tests {
    use super::*;
    use crate::form::FORMS;
    use crate::grammar;

    /// A comparison that finds nothing must be able to find something: the verdict on one payload is held against the answers to another.
    #[test]
    fn another_answer_is_found() {
        let mut desk = Desk::default();
        let mut rng = Rng::new(5);
        for form in FORMS {
            let payloads: Vec<_> = (0..60).map(|_| grammar::payload(form, &mut rng)).collect();
            let said = payloads.iter().map(|p| verdict(form, p));
            let mut found = 0;
            for (verdict, other) in said.zip(payloads.iter().skip(1)) {
                let differs = told(&verdict) != told(&crate::verdict::verdict(form, other));
                let result = held_against(&verdict, form, other, &mut desk);
                assert_eq!(result.is_err(), differs, "{} {other:02x?}", form.name());
                found += u64::from(differs);
            }
            assert!(found > 30, "{}: {found}", form.name());
        }
    }

    /// All that a verdict says.
    fn told(verdict: &Verdict) -> impl PartialEq {
        let mut laid = Layout::joined();
        let (refusal, fields, used) = match verdict {
            Verdict::Said(said) => (None, said.lay(&mut laid), said.used()),
            Verdict::Refused(refusal) => (Some(*refusal), [0; 6], 0),
            Verdict::Apart(_, refusal) => (*refusal, [0; 6], 0),
        };
        (refusal, fields, used, laid.text, laid.rows, laid.nodes)
    }
}
