//! Decoding a payload.
use crate::desc::Desc;
use crate::ffi;
use crate::memory::Lent;
use crate::message::{Message, MessageKind};
use crate::refusal::Refusal;

/// Decodes a payload into lent memory, as one of the twelve messages or, with `None`, as opaque.
///
/// ```
/// use fjord_gateway::{decode, Memory, Message, MessageKind};
/// let mut memory = Memory::new(16, 0, 0);
/// let message = decode(MessageKind::Error, b"\x07\x07Insulin", memory.lend())?;
/// let Message::Error { text, .. } = message else { panic!() };
/// assert_eq!(text, "Insulin");
/// assert_eq!(decode(MessageKind::Error, b"\x07", memory.lend()).unwrap_err().number, 1);
/// let opaque = decode(None, b"\xFF", memory.lend())?;
/// assert_eq!(opaque, Message::Opaque { payload: &[0xFF] });
/// # Ok::<(), fjord_gateway::Refusal>(())
/// ```
pub fn decode<'m>(
    kind: impl Into<Option<MessageKind>>,
    payload: &[u8],
    lent: Lent<'m>,
) -> Result<Message<'m>, Refusal> {
    let entry = kind.into().map_or(0, MessageKind::number);
    let mut answer = [0; 16];
    // SAFETY: each pointer comes with its slice's length, and the borrows say that none overlaps another.
    unsafe {
        ffi::fjord_decode(
            entry,
            payload.as_ptr(),
            payload.len(),
            lent.text.as_mut_ptr(),
            lent.text.len(),
            lent.rows.as_mut_ptr(),
            lent.rows.len(),
            lent.nodes.as_mut_ptr(),
            lent.nodes.len(),
            &mut answer,
        )
    };
    Refusal::of(&answer)?;
    Ok(Message::of(answer[7], &answer[8..14], lent.filled()))
}

/// Decodes the descriptor at the start of a payload, and says how many bytes it used.
///
/// ```
/// use fjord_gateway::{decode_desc, DescKind, Memory};
/// let mut memory = Memory::for_payload(3);
/// let (desc, used) = decode_desc(&[5, 9, 9], memory.lend())?;
/// assert_eq!((desc.kind(), used), (DescKind::Bytes, 1));
/// # Ok::<(), fjord_gateway::Refusal>(())
/// ```
pub fn decode_desc<'m>(payload: &[u8], lent: Lent<'m>) -> Result<(Desc<'m>, usize), Refusal> {
    let mut answer = [0; 16];
    // SAFETY: as in `decode`.
    unsafe {
        ffi::fjord_decode_desc(
            payload.as_ptr(),
            payload.len(),
            lent.text.as_mut_ptr(),
            lent.text.len(),
            lent.rows.as_mut_ptr(),
            lent.rows.len(),
            lent.nodes.as_mut_ptr(),
            lent.nodes.len(),
            &mut answer,
        )
    };
    Refusal::of(&answer)?;
    Ok((Desc::at(lent.filled(), 0), answer[3] as usize))
}
