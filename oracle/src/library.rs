//! The proved library's entry points, called on memory that is dirty before and watched behind its end.
use crate::form::Form;
use crate::refusal::Refusal;
use fjord_gateway::ffi;
pub use fjord_gateway::ffi::{Answer, Receiver};
use std::ptr;

/// Cells behind a lent buffer, which must stay as they are.
const GUARD: usize = 8;

/// A byte and a number that no part of a message is likely to be; there are two of each, so that a cell which was not written shows in one call.
pub const DIRT: [u8; 2] = [0xa5, 0x5a];
pub const NUMBER_DIRT: [u64; 2] = [0xa5a5_a5a5_a5a5_a5a5, 0x5a5a_5a5a_5a5a_5a5a];

/// Memory to lend.
#[derive(Default)]
pub struct Buffer<T> {
    cells: Vec<T>,
    len: usize,
    dirt: T,
}

impl<T: Copy + Default + PartialEq> Buffer<T> {
    /// Lends so many cells, all dirty.
    pub fn lend(&mut self, len: usize, dirt: T) {
        self.cells.clear();
        self.cells.resize(len + GUARD, dirt);
        self.len = len;
        self.dirt = dirt;
    }

    pub fn lent(&self) -> &[T] {
        &self.cells[..self.len]
    }

    /// Is it these, then zeros?
    pub fn holds(&self, front: &[T]) -> bool {
        let (written, rest) = self.lent().split_at(front.len().min(self.len));
        written == front && all(rest, T::default()) && self.is_guarded()
    }

    /// Is it still all dirty?
    pub fn is_kept(&self) -> bool {
        all(&self.cells, self.dirt)
    }

    pub fn is_guarded(&self) -> bool {
        all(&self.cells[self.len..], self.dirt)
    }

    /// "an empty slice may have a null pointer"
    fn pointer(&mut self) -> *mut T {
        if self.len == 0 {
            ptr::null_mut()
        } else {
            self.cells.as_mut_ptr()
        }
    }
}

fn all<T: Copy + PartialEq>(cells: &[T], value: T) -> bool {
    cells.iter().all(|c| *c == value)
}

/// What a decoder is lent.
#[derive(Default)]
pub struct Lent {
    pub text: Buffer<u8>,
    pub rows: Buffer<u64>,
    pub nodes: Buffer<u64>,
}

impl Lent {
    /// Lends lengths of text, rows and nodes, with the dirt of that number.
    pub fn lend(&mut self, room: [usize; 3], dirt: usize) {
        self.text.lend(room[0], DIRT[dirt]);
        self.rows.lend(room[1], NUMBER_DIRT[dirt]);
        self.nodes.lend(room[2], NUMBER_DIRT[dirt]);
    }

    pub fn is_kept(&self) -> bool {
        self.text.is_kept() && self.rows.is_kept() && self.nodes.is_kept()
    }

    pub fn is_guarded(&self) -> bool {
        self.text.is_guarded() && self.rows.is_guarded() && self.nodes.is_guarded()
    }
}

/// The parts of an answer; what is not given is 0.
#[derive(Clone, Copy, Default)]
pub struct Parts {
    pub refusal: Refusal,
    pub used: u64,
    /// A frame's kind, stream and length.
    pub head: [u64; 3],
    pub message: u64,
    pub fields: [u64; 6],
}

impl Parts {
    pub fn answer(&self) -> Answer {
        let mut a = [0; 16];
        a[..3].copy_from_slice(&self.refusal);
        a[3] = self.used;
        a[4..7].copy_from_slice(&self.head);
        a[7] = self.message;
        a[8..14].copy_from_slice(&self.fields);
        a
    }
}

/// What a call gave back.
#[derive(Clone, Copy, Debug, PartialEq, Eq)]
pub struct Reply {
    pub result: u64,
    pub answer: Answer,
}

impl Reply {
    /// The result of every call but an offer is the refusal's number.
    pub fn of(parts: &Parts) -> Reply {
        Reply {
            result: parts.refusal[0],
            answer: parts.answer(),
        }
    }

    pub fn refused(refusal: Refusal) -> Reply {
        Reply::of(&Parts {
            refusal,
            ..Parts::default()
        })
    }
}

fn replied(call: impl FnOnce(*mut Answer) -> u64) -> Reply {
    let mut answer = [NUMBER_DIRT[0]; 16];
    let result = call(&mut answer);
    Reply { result, answer }
}

fn pointer<T>(cells: &[T]) -> *const T {
    if cells.is_empty() {
        ptr::null()
    } else {
        cells.as_ptr()
    }
}

// SAFETY, of every call below: each pointer is null with length 0, or that of a slice or buffer of this length that lives through the
// call; what is written is borrowed mutably, so that nothing overlaps.

fn decode_message(number: u8, payload: &[u8], m: &mut Lent) -> Reply {
    let [text_len, rows_len, nodes_len] = [m.text.len, m.rows.len, m.nodes.len];
    let (text, rows, nodes) = (m.text.pointer(), m.rows.pointer(), m.nodes.pointer());
    replied(|answer| unsafe {
        ffi::fjord_decode(
            u64::from(number),
            pointer(payload),
            payload.len(),
            text,
            text_len,
            rows,
            rows_len,
            nodes,
            nodes_len,
            answer,
        )
    })
}

fn decode_desc(payload: &[u8], m: &mut Lent) -> Reply {
    let [text_len, rows_len, nodes_len] = [m.text.len, m.rows.len, m.nodes.len];
    let (text, rows, nodes) = (m.text.pointer(), m.rows.pointer(), m.nodes.pointer());
    replied(|answer| unsafe {
        ffi::fjord_decode_desc(
            pointer(payload),
            payload.len(),
            text,
            text_len,
            rows,
            rows_len,
            nodes,
            nodes_len,
            answer,
        )
    })
}

pub fn decode(form: Form, payload: &[u8], m: &mut Lent) -> Reply {
    match form {
        Form::Message(n) => decode_message(n, payload, m),
        Form::Desc => decode_desc(payload, m),
    }
}

/// A message in memory, as an encoder is given it.
pub struct Request<'a> {
    pub fields: [u64; 6],
    pub text: &'a [u8],
    pub rows: &'a [u64],
    pub nodes: &'a [u64],
}

fn encode_message(number: u8, m: &Request, out: &mut Buffer<u8>) -> Reply {
    let (to, to_len) = (out.pointer(), out.len);
    replied(|answer| unsafe {
        ffi::fjord_encode(
            u64::from(number),
            &m.fields,
            pointer(m.text),
            m.text.len(),
            pointer(m.rows),
            m.rows.len(),
            pointer(m.nodes),
            m.nodes.len(),
            to,
            to_len,
            answer,
        )
    })
}

fn encode_desc(m: &Request, out: &mut Buffer<u8>) -> Reply {
    let (to, to_len) = (out.pointer(), out.len);
    replied(|answer| unsafe {
        ffi::fjord_encode_desc(
            pointer(m.text),
            m.text.len(),
            pointer(m.nodes),
            m.nodes.len(),
            to,
            to_len,
            answer,
        )
    })
}

pub fn encode(form: Form, m: &Request, out: &mut Buffer<u8>) -> Reply {
    match form {
        Form::Message(n) => encode_message(n, m, out),
        Form::Desc => encode_desc(m, out),
    }
}

pub fn get_u64(bytes: &[u8]) -> Reply {
    replied(|answer| unsafe { ffi::fjord_get_u64(pointer(bytes), bytes.len(), answer) })
}

pub fn put_u64(value: u64, out: &mut Buffer<u8>) -> Reply {
    let (to, to_len) = (out.pointer(), out.len);
    replied(|answer| unsafe { ffi::fjord_put_u64(value, to, to_len, answer) })
}

pub fn decode_header(bytes: &[u8]) -> Reply {
    replied(|answer| unsafe { ffi::fjord_decode_header(pointer(bytes), bytes.len(), answer) })
}

pub fn decode_frame(bytes: &[u8]) -> Reply {
    replied(|answer| unsafe { ffi::fjord_decode_frame(pointer(bytes), bytes.len(), answer) })
}

pub fn encode_frame(kind: u8, stream: u32, payload: &[u8], out: &mut Buffer<u8>) -> Reply {
    let (to, to_len) = (out.pointer(), out.len);
    replied(|answer| unsafe {
        ffi::fjord_encode_frame(
            kind,
            stream,
            pointer(payload),
            payload.len(),
            to,
            to_len,
            answer,
        )
    })
}

pub fn open(receiver: &mut Receiver, table: &[u8], hold: &mut Buffer<u8>) -> Reply {
    let (at, len) = (hold.pointer(), hold.len);
    replied(|answer| unsafe {
        ffi::fjord_open(receiver, pointer(table), table.len(), at, len, answer)
    })
}

pub fn offer(receiver: &mut Receiver, piece: &[u8], hold: &mut Buffer<u8>, m: &mut Lent) -> Reply {
    let [hold_len, text_len, rows_len, nodes_len] = [hold.len, m.text.len, m.rows.len, m.nodes.len];
    let (hold, text) = (hold.pointer(), m.text.pointer());
    let (rows, nodes) = (m.rows.pointer(), m.nodes.pointer());
    replied(|answer| unsafe {
        ffi::fjord_offer(
            receiver,
            pointer(piece),
            piece.len(),
            hold,
            hold_len,
            text,
            text_len,
            rows,
            rows_len,
            nodes,
            nodes_len,
            answer,
        )
    })
}
