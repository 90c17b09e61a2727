//! What the original makes of a payload, and whether that is in document 01's domain.
use crate::form::Form;
use crate::refusal::{refusal_of, Refusal};
use crate::said::Said;
use crate::survey::{survey, End, BYTES_PER_LEVEL, MAX_DEPTH};
use std::cell::Cell;
use std::panic;

/// "a payload of at most 67,108,864 bytes"
pub const MAX_PAYLOAD: usize = 67_108_864;

/// Why a payload is counted apart: the original has no answer that document 01 would keep.
#[derive(Clone, Copy, Debug, PartialEq, Eq)]
pub enum Apart {
    /// Over the maximum.
    Long,
    /// Depth 65.
    Deep,
    /// The original panics.
    Panic,
    /// The original would reserve over a gibibyte; it is not called.
    Reserve,
}

pub enum Verdict {
    Said(Said),
    Refused(Refusal),
    /// With document 01's own refusal, where it names one.
    Apart(Apart, Option<Refusal>),
}

thread_local! {
    static LISTENING: Cell<bool> = const { Cell::new(false) };
}

/// A panic of the original is an answer; only others are printed.
pub fn hush() {
    let print = panic::take_hook();
    panic::set_hook(Box::new(move |info| {
        if !LISTENING.get() {
            print(info);
        }
    }));
}

/// The original's value, or nothing where it panics.
fn heard<T>(call: impl FnOnce() -> T + panic::UnwindSafe) -> Option<T> {
    LISTENING.set(true);
    let result = panic::catch_unwind(call);
    LISTENING.set(false);
    result.ok()
}

pub fn verdict(form: Form, payload: &[u8]) -> Verdict {
    if payload.len() > MAX_PAYLOAD {
        let refusal = [12, payload.len() as u64, MAX_PAYLOAD as u64];
        return Verdict::Apart(Apart::Long, Some(refusal));
    }
    // A short payload reaches neither depth 65 nor much memory.
    if form.has_descs() && payload.len() >= MAX_DEPTH * BYTES_PER_LEVEL {
        match survey(form, payload) {
            Err(End::Deep) => {
                return Verdict::Apart(Apart::Deep, Some([15, MAX_DEPTH as u64, 0]));
            }
            Err(End::Reserved) => return Verdict::Apart(Apart::Reserve, None),
            _ => {}
        }
    }
    match heard(|| Said::read(form, payload)) {
        Some(Ok(said)) => Verdict::Said(said),
        Some(Err(e)) => Verdict::Refused(refusal_of(&e)),
        None => Verdict::Apart(Apart::Panic, wrapped(form, payload)),
    }
}

/// "In `take_name` a length whose sum with the place passes 2^64−1 panics; here it is 5(length, left)."
fn wrapped(form: Form, payload: &[u8]) -> Option<Refusal> {
    match survey(form, payload) {
        Err(End::Wrapped(len, left)) => Some([5, len, left]),
        _ => None,
    }
}
