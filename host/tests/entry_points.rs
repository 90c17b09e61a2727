//! Every entry point of the static library is called and its answer compared: what the declarations cannot tell, layouts and lengths, and that
//! buffers which were dirty before are clean past what was written.
use fjord_gateway::ffi::*;
use std::mem::{offset_of, size_of};

/// The three buffers that are lent to a decoder, filled with 9 before each call.
#[derive(Clone, Debug, PartialEq)]
struct Lent {
    text: Vec<u8>,
    rows: Vec<u64>,
    nodes: Vec<u64>,
}

fn lent(text: usize, rows: usize, nodes: usize) -> Lent {
    Lent { text: vec![9; text], rows: vec![9; rows], nodes: vec![9; nodes] }
}

fn answer() -> Answer {
    [9; 16]
}

fn decode(entry: u64, payload: &[u8], m: &mut Lent) -> (u64, Answer) {
    let mut a = answer();
    let r = unsafe {
        fjord_decode(
            entry,
            payload.as_ptr(),
            payload.len(),
            m.text.as_mut_ptr(),
            m.text.len(),
            m.rows.as_mut_ptr(),
            m.rows.len(),
            m.nodes.as_mut_ptr(),
            m.nodes.len(),
            &mut a,
        )
    };
    (r, a)
}

fn decode_desc(payload: &[u8], m: &mut Lent) -> (u64, Answer) {
    let mut a = answer();
    let r = unsafe {
        fjord_decode_desc(
            payload.as_ptr(),
            payload.len(),
            m.text.as_mut_ptr(),
            m.text.len(),
            m.rows.as_mut_ptr(),
            m.rows.len(),
            m.nodes.as_mut_ptr(),
            m.nodes.len(),
            &mut a,
        )
    };
    (r, a)
}

fn encode(number: u64, fields: [u64; 6], text: &[u8], rows: &[u64], nodes: &[u64], out: &mut [u8]) -> (u64, Answer) {
    let mut a = answer();
    let r = unsafe {
        fjord_encode(
            number,
            &fields,
            text.as_ptr(),
            text.len(),
            rows.as_ptr(),
            rows.len(),
            nodes.as_ptr(),
            nodes.len(),
            out.as_mut_ptr(),
            out.len(),
            &mut a,
        )
    };
    (r, a)
}

fn encode_frame(kind: u8, stream: u32, payload: &[u8], out: &mut [u8]) -> (u64, Answer) {
    let mut a = answer();
    let r = unsafe {
        fjord_encode_frame(kind, stream, payload.as_ptr(), payload.len(), out.as_mut_ptr(), out.len(), &mut a)
    };
    (r, a)
}

fn open(receiver: &mut Receiver, table: &[u8], hold: &mut [u8]) -> (u64, Answer) {
    let mut a = answer();
    let r = unsafe { fjord_open(receiver, table.as_ptr(), table.len(), hold.as_mut_ptr(), hold.len(), &mut a) };
    (r, a)
}

fn offer(receiver: &mut Receiver, piece: &[u8], hold: &mut [u8], m: &mut Lent) -> (u64, Answer) {
    let mut a = answer();
    let r = unsafe {
        fjord_offer(
            receiver,
            piece.as_ptr(),
            piece.len(),
            hold.as_mut_ptr(),
            hold.len(),
            m.text.as_mut_ptr(),
            m.text.len(),
            m.rows.as_mut_ptr(),
            m.rows.len(),
            m.nodes.as_mut_ptr(),
            m.nodes.len(),
            &mut a,
        )
    };
    (r, a)
}

/// An answer by its first numbers, the rest 0.
fn told(first: &[u64]) -> Answer {
    let mut a = [0; 16];
    a[..first.len()].copy_from_slice(first);
    a
}

#[test]
fn the_receiver_is_laid_out_as_declared() {
    assert_eq!(size_of::<Receiver>(), 320);
    assert_eq!(offset_of!(Receiver, header), 256);
    assert_eq!(offset_of!(Receiver, header_len), 272);
    assert_eq!(offset_of!(Receiver, payload_len), 280);
    assert_eq!(offset_of!(Receiver, hold_len), 288);
    assert_eq!(offset_of!(Receiver, stop), 296);
    assert_eq!(offset_of!(Receiver, stop_b), 312);
}

#[test]
fn messages_are_decoded() {
    // control, its flag byte 7
    let mut m = lent(3, 2, 8);
    let (r, a) = decode(7, &[0x02, 0x01, 0x61, 0x07, 0x00], &mut m);
    assert_eq!((r, a), (0, told(&[0, 0, 0, 0, 0, 0, 0, 7, 2, 0, 1, 1, 1, 0])));
    assert_eq!(m, Lent { text: vec![0x61, 0, 0], rows: vec![0; 2], nodes: vec![0; 8] });

    // ready of a version over 32 bits and a byte left over: 10(1), and nothing is written
    let mut m = lent(3, 2, 8);
    let (r, a) = decode(2, &[0x80, 0x80, 0x80, 0x80, 0x10, 0, 0, 0], &mut m);
    assert_eq!((r, a), (10, told(&[10, 1, 0, 0, 0, 0, 0, 2])));
    assert_eq!(m, lent(3, 2, 8));

    // no message has the number 13: an opaque payload
    let mut m = lent(3, 2, 8);
    let (r, a) = decode(13, &[0xFF, 0xFE], &mut m);
    assert_eq!((r, a), (0, told(&[0, 0, 0, 0, 0, 0, 0, 0, 0, 2])));
    assert_eq!(m, Lent { text: vec![0xFF, 0xFE, 0], rows: vec![0; 2], nodes: vec![0; 8] });

    // an empty slice may have no address
    let mut a = answer();
    let r = unsafe {
        fjord_decode(
            0,
            std::ptr::null(),
            0,
            std::ptr::null_mut(),
            0,
            std::ptr::null_mut(),
            0,
            std::ptr::null_mut(),
            0,
            &mut a,
        )
    };
    assert_eq!((r, a), (0, told(&[])));
}

#[test]
fn descriptors_are_decoded_and_encoded() {
    // a record of one field "a" that is an int, and a byte after it
    let bytes = [0x03, 0x01, 0x01, 0x61, 0x00];
    let mut m = lent(2, 1, 15);
    let (r, a) = decode_desc(&[bytes.as_slice(), &[0xFF]].concat(), &mut m);
    assert_eq!((r, a), (0, told(&[0, 0, 0, 5])));
    assert_eq!(m.text, [0x61, 0]);
    assert_eq!(m.rows, [0]);
    assert_eq!(m.nodes, [3, 0, 0, 0, 0, 1, 2, 0, 0, 1, 0, 0, 0, 2, 0]);

    let mut out = [9u8; 7];
    let mut a = answer();
    let r = unsafe {
        fjord_encode_desc(m.text.as_ptr(), m.text.len(), m.nodes.as_ptr(), 14, out.as_mut_ptr(), out.len(), &mut a)
    };
    assert_eq!((r, a), (0, told(&[0, 0, 0, 5])));
    assert_eq!(out, [0x03, 0x01, 0x01, 0x61, 0x00, 0, 0]);

    // a count over the bytes
    let mut m = lent(2, 1, 15);
    assert_eq!(decode_desc(&[0x03, 0x05, 0x00], &mut m), (5, told(&[5, 5, 3])));
    assert_eq!(m, lent(2, 1, 15));
}

#[test]
fn messages_are_encoded() {
    // a fetch of one id without a digest, whose place is not read
    let mut out = [9u8; 6];
    let got = encode(11, [0, 77, 1, 9, 9, 9], &[], &[2 << 40 | 5], &[], &mut out);
    assert_eq!(got, (0, told(&[0, 0, 0, 4])));
    assert_eq!(out, [0, 1, 2, 5, 0, 0]);

    // out too small, a mode that is none, a message that is none: nothing written
    let mut out = [9u8; 3];
    assert_eq!(encode(11, [0, 0, 1, 0, 0, 0], &[], &[2 << 40 | 5], &[], &mut out), (16, told(&[16, 5, 4])));
    assert_eq!(encode(1, [4, 0, 0, 2, 0, 0], &[], &[], &[], &mut out), (19, told(&[19, 4])));
    assert_eq!(encode(1, [4, 0, 0, 2, 0, 1], &[], &[], &[], &mut out), (19, told(&[19, 2])));
    assert_eq!(encode(13, [0; 6], &[], &[], &[], &mut out), (19, told(&[19, 4])));
    assert_eq!(out, [9; 3]);
}

#[test]
fn varints_are_read_and_written() {
    let mut a = answer();
    let bytes = [0x80, 0x01, 0xFF];
    let r = unsafe { fjord_get_u64(bytes.as_ptr(), bytes.len(), &mut a) };
    assert_eq!((r, a), (0, told(&[0, 0, 0, 2, 0, 0, 0, 0, 128])));
    let bytes = [0x80, 0x00];
    let r = unsafe { fjord_get_u64(bytes.as_ptr(), bytes.len(), &mut a) };
    assert_eq!((r, a), (3, told(&[3])));

    let mut out = [9u8; 12];
    let r = unsafe { fjord_put_u64(u64::MAX, out.as_mut_ptr(), out.len(), &mut a) };
    assert_eq!((r, a), (0, told(&[0, 0, 0, 10])));
    assert_eq!(out, [0xFF, 0xFF, 0xFF, 0xFF, 0xFF, 0xFF, 0xFF, 0xFF, 0xFF, 0x01, 0, 0]);
    let r = unsafe { fjord_put_u64(128, out.as_mut_ptr(), 1, &mut a) };
    assert_eq!((r, a), (16, told(&[16, 5, 2])));
}

#[test]
fn frames_are_written_and_read() {
    let mut out = [9u8; 14];
    assert_eq!(encode_frame(b'R', 0x0102_0304, &[1, 2, 3], &mut out), (0, told(&[0, 0, 0, 12])));
    assert_eq!(out, [b'R', 4, 3, 2, 1, 3, 0, 0, 0, 1, 2, 3, 0, 0]);

    let mut a = answer();
    let r = unsafe { fjord_decode_header(out.as_ptr(), 9, &mut a) };
    assert_eq!((r, a), (0, told(&[0, 0, 0, 0, u64::from(b'R'), 0x0102_0304, 3])));
    let r = unsafe { fjord_decode_header(out.as_ptr(), 8, &mut a) };
    assert_eq!((r, a), (1, told(&[1])));
    let r = unsafe { fjord_decode_frame(out.as_ptr(), out.len(), &mut a) };
    assert_eq!((r, a), (0, told(&[0, 0, 0, 12, u64::from(b'R'), 0x0102_0304, 3])));
    let r = unsafe { fjord_decode_frame(out.as_ptr(), 11, &mut a) };
    assert_eq!((r, a), (5, told(&[5, 3, 2])));

    let mut small = [9u8; 11];
    assert_eq!(encode_frame(b'R', 1, &[1, 2, 3], &mut small), (16, told(&[16, 5, 12])));
    assert_eq!(small, [9; 11]);
}

#[test]
fn a_slot_shows_one_text() {
    let text = b"Morphine sulfateInsulin";
    let mut slot = *b"................";
    let mut a = answer();
    let mut put = |start, length, slot: &mut [u8]| {
        let r =
            unsafe { fjord_put_slot(text.as_ptr(), text.len(), start, length, slot.as_mut_ptr(), slot.len(), &mut a) };
        (r, a)
    };
    assert_eq!(put(0, 16, &mut slot), (0, told(&[])));
    assert_eq!(&slot, b"Morphine sulfate");
    assert_eq!(put(16, 7, &mut slot), (0, told(&[])));
    assert_eq!(&slot, b"Insulin         ");
    assert_eq!(put(17, 7, &mut slot), (19, told(&[19, 1])));
    assert_eq!(put(u64::MAX, 1, &mut slot), (19, told(&[19, 1])));
    assert_eq!(&slot, b"Insulin         ");
}

/// What a run hands out: each frame's answer with the memory as it stands then, or the stop's; and the bytes used in all.
fn driven(receiver: &mut Receiver, hold: &mut [u8], m: &mut Lent, pieces: &[&[u8]]) -> (Vec<(Answer, Lent)>, u64) {
    let (mut out, mut used) = (Vec::new(), 0);
    for piece in pieces {
        let mut rest = *piece;
        loop {
            let (result, mut a) = offer(receiver, rest, hold, m);
            used += a[3];
            rest = &rest[a[3] as usize..];
            a[3] = 0; // the bytes of one call depend on the cut
            match result {
                1 => out.push((a, m.clone())),
                2 => {
                    out.push((a, m.clone()));
                    break;
                }
                _ => break,
            }
        }
    }
    (out, used)
}

/// The mission's case: "Morphine sulfate" and then "Insulin" in the same memory, at every cut of the two frames in three pieces.
#[test]
fn insulin_is_never_insuline_sulfate() {
    let mut table = [0u8; 256];
    table[usize::from(b'E')] = 3;
    let error = |name: &str| [&[1, name.len() as u8], name.as_bytes()].concat();
    let mut run = Vec::new();
    for name in ["Morphine sulfate", "Insulin"] {
        let payload = error(name);
        let mut frame = vec![0; 9 + payload.len()];
        assert_eq!(encode_frame(b'E', 5, &payload, &mut frame).0, 0);
        run.extend(frame);
    }
    let fresh = || {
        let mut receiver = Receiver::unopened();
        let mut hold = vec![9u8; 64];
        assert_eq!(open(&mut receiver, &table, &mut hold), (0, told(&[])));
        assert_eq!(hold, [0; 64]);
        (receiver, hold, lent(32, 2, 7))
    };
    let (mut receiver, mut hold, mut m) = fresh();
    let whole = driven(&mut receiver, &mut hold, &mut m, &[&run]);
    assert_eq!(whole.1, run.len() as u64);
    assert_eq!(whole.0.len(), 2);
    assert_eq!(whole.0[0].0, told(&[0, 0, 0, 0, u64::from(b'E'), 5, 18, 3, 1, 0, 16]));
    assert_eq!(whole.0[1].0, told(&[0, 0, 0, 0, u64::from(b'E'), 5, 9, 3, 1, 0, 7]));
    assert_eq!(whole.0[1].1.text, [b"Insulin".as_slice(), &[0; 25]].concat());
    let end = (receiver, hold, m);
    for i in 0..=run.len() {
        for j in i..=run.len() {
            let (mut receiver, mut hold, mut m) = fresh();
            let cut = driven(&mut receiver, &mut hold, &mut m, &[&run[..i], &run[i..j], &run[j..]]);
            assert_eq!((&cut, &receiver, &hold, &m), (&whole, &end.0, &end.1, &end.2), "cut at {i} and {j}");
        }
    }
}

#[test]
fn an_opening_and_an_offer_refuse() {
    let mut receiver = Receiver::unopened();
    receiver.stop_b = 7;
    let before = receiver;
    let mut hold = vec![9u8; 4];
    assert_eq!(open(&mut receiver, &[0; 255], &mut hold), (18, told(&[18, 255])));
    assert_eq!((receiver, hold.as_slice()), (before, [9; 4].as_slice()));
    assert_eq!(open(&mut receiver, &[0; 256], &mut hold), (0, told(&[])));

    // a hold of another length, and counts that are impossible
    let mut m = lent(4, 1, 1);
    let before = receiver;
    assert_eq!(offer(&mut receiver, &[1], &mut [0; 5], &mut m), (3, told(&[17])));
    receiver.header_len = 10;
    assert_eq!(offer(&mut receiver, &[1], &mut hold, &mut m), (3, told(&[17])));
    receiver.header_len = 0;
    assert_eq!(receiver, before);

    // a payload over the hold's length stops the run through the ninth byte, and the stop is given again
    let run = [7, 1, 0, 0, 0, 5, 0, 0, 0, 1, 2];
    assert_eq!(offer(&mut receiver, &run, &mut hold, &mut m), (2, told(&[16, 4, 5, 9])));
    assert_eq!((receiver.stop, receiver.stop_a, receiver.stop_b), (16, 4, 5));
    let stopped = receiver;
    assert_eq!(offer(&mut receiver, &[1], &mut hold, &mut m), (3, told(&[16, 4, 5])));
    assert_eq!((receiver, m), (stopped, lent(4, 1, 1)));
}
