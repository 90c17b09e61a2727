//! Frames and the display slot.
use crate::ffi;
use crate::refusal::Refusal;

/// A frame's header.
///
/// ```
/// use fjord_gateway::{decode_header, FrameHeader};
/// let header = decode_header(&[b'C', 7, 0, 0, 0, 2, 0, 0, 0])?;
/// assert_eq!(header, FrameHeader { kind: b'C', stream: 7, length: 2 });
/// # Ok::<(), fjord_gateway::Refusal>(())
/// ```
#[derive(Clone, Copy, Debug, PartialEq, Eq, Hash)]
pub struct FrameHeader {
    /// What kind of message the frame carries.
    pub kind: u8,
    /// Which stream of the connection it belongs to.
    pub stream: u32,
    /// How many bytes of payload follow.
    pub length: u32,
}

impl FrameHeader {
    pub(crate) fn of(answer: &[u64; 16]) -> Self {
        FrameHeader { kind: answer[4] as u8, stream: answer[5] as u32, length: answer[6] as u32 }
    }
}

/// Writes a frame and zeros after it, and says how many bytes the frame has.
///
/// ```
/// let mut out = [9; 12];
/// assert_eq!(fjord_gateway::encode_frame(b'X', 1, &[], &mut out)?, 9);
/// assert_eq!(out, [b'X', 1, 0, 0, 0, 0, 0, 0, 0, 0, 0, 0]);
/// # Ok::<(), fjord_gateway::Refusal>(())
/// ```
pub fn encode_frame(kind: u8, stream: u32, payload: &[u8], out: &mut [u8]) -> Result<usize, Refusal> {
    let mut answer = [0; 16];
    // SAFETY: each pointer comes with its slice's length, and the borrows say that none overlaps another.
    unsafe {
        ffi::fjord_encode_frame(kind, stream, payload.as_ptr(), payload.len(), out.as_mut_ptr(), out.len(), &mut answer)
    };
    Refusal::of(&answer)?;
    Ok(answer[3] as usize)
}

/// Reads a frame's header without waiting for its payload.
///
/// ```
/// let header = fjord_gateway::decode_header(&[b'X', 1, 0, 0, 0, 5, 0, 0, 0])?;
/// assert_eq!((header.kind, header.stream, header.length), (b'X', 1, 5));
/// # Ok::<(), fjord_gateway::Refusal>(())
/// ```
pub fn decode_header(bytes: &[u8]) -> Result<FrameHeader, Refusal> {
    let mut answer = [0; 16];
    // SAFETY: the pointer comes with its slice's length.
    unsafe { ffi::fjord_decode_header(bytes.as_ptr(), bytes.len(), &mut answer) };
    Refusal::of(&answer)?;
    Ok(FrameHeader::of(&answer))
}

/// Reads the frame at the start of the bytes: its header, its payload, and how many bytes it has in all.
///
/// ```
/// let bytes = [b'X', 1, 0, 0, 0, 1, 0, 0, 0, 42, 7];
/// let (header, payload, used) = fjord_gateway::decode_frame(&bytes)?;
/// assert_eq!((header.length, payload, used), (1, [42].as_slice(), 10));
/// # Ok::<(), fjord_gateway::Refusal>(())
/// ```
pub fn decode_frame(bytes: &[u8]) -> Result<(FrameHeader, &[u8], usize), Refusal> {
    let mut answer = [0; 16];
    // SAFETY: the pointer comes with its slice's length.
    unsafe { ffi::fjord_decode_frame(bytes.as_ptr(), bytes.len(), &mut answer) };
    Refusal::of(&answer)?;
    let used = answer[3] as usize;
    Ok((FrameHeader::of(&answer), &bytes[9..used], used))
}

/// Puts a text in a display slot: as many of its bytes as fit, then spaces.
///
/// ```
/// let mut slot = *b"Morphine sulfate";
/// fjord_gateway::put_slot("Insulin", &mut slot)?;
/// assert_eq!(&slot, b"Insulin         ");
/// # Ok::<(), fjord_gateway::Refusal>(())
/// ```
pub fn put_slot(text: &str, slot: &mut [u8]) -> Result<(), Refusal> {
    let mut answer = [0; 16];
    // SAFETY: each pointer comes with its slice's length, and the borrows say that none overlaps another.
    unsafe {
        ffi::fjord_put_slot(text.as_ptr(), text.len(), 0, text.len() as u64, slot.as_mut_ptr(), slot.len(), &mut answer)
    };
    Refusal::of(&answer)
}
