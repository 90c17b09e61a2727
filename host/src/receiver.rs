//! The receiver: a run of bytes in pieces.
use crate::ffi;
use crate::frame::FrameHeader;
use crate::memory::Lent;
use crate::message::Message;
use crate::refusal::Refusal;
use crate::tables::KindTable;

/// A frame that was handed out, with its message or why that was refused.
///
/// ```
/// use fjord_gateway::{Frame, KindTable, Memory, Message, Receiver};
/// let (mut hold, mut memory) = ([0; 8], Memory::new(8, 0, 0));
/// let mut receiver = Receiver::open(&KindTable::from_server(), &mut hold);
/// let mut piece = b"C\x01\0\0\0\x02\0\0\0\x05\x06".as_slice();
/// let Frame { header, message } = receiver.next(&mut piece, memory.lend())?.unwrap();
/// assert_eq!((header.kind, message), (b'C', Ok(Message::Complete { first: 5, second: 6 })));
/// # Ok::<(), fjord_gateway::Refusal>(())
/// ```
#[derive(Clone, Debug, PartialEq)]
pub struct Frame<'m> {
    /// Its kind, stream and length.
    pub header: FrameHeader,
    /// What it says.
    pub message: Result<Message<'m>, Refusal>,
}

/// Takes a run of bytes in pieces, in whatever way it was cut, and hands out its frames.
///
/// It keeps what it holds of an unfinished frame in `hold`, which must have room for the longest payload that is expected: a longer one stops the run by
/// 16(4).
///
/// ```
/// use fjord_gateway::{KindTable, Memory, Message, Receiver};
/// let (mut hold, mut memory) = ([0; 32], Memory::new(32, 0, 0));
/// let mut receiver = Receiver::open(&KindTable::from_server(), &mut hold);
/// let run = b"E\x01\0\0\0\x12\0\0\0\x08\x10Morphine sulfateE\x01\0\0\0\x09\0\0\0\x08\x07Insulin";
/// let mut shown = Vec::new();
/// for mut piece in run.chunks(5) {
///     while let Some(frame) = receiver.next(&mut piece, memory.lend())? {
///         let Ok(Message::Error { text, .. }) = frame.message else { panic!() };
///         shown.push(text.to_string());
///     }
/// }
/// assert_eq!(shown, ["Morphine sulfate", "Insulin"]);
/// # Ok::<(), fjord_gateway::Refusal>(())
/// ```
#[derive(Debug)]
pub struct Receiver<'h> {
    state: ffi::Receiver,
    hold: &'h mut [u8],
}

impl<'h> Receiver<'h> {
    /// Opens a receiver over a kind table and a hold, which it clears.
    ///
    /// ```
    /// use fjord_gateway::{KindTable, Receiver};
    /// let mut hold = [9; 64];
    /// let receiver = Receiver::open(&KindTable::opaque(), &mut hold);
    /// assert_eq!(receiver.held(), 0);
    /// ```
    pub fn open(table: &KindTable, hold: &'h mut [u8]) -> Self {
        let mut state = ffi::Receiver::unopened();
        let mut answer = [0; 16];
        let entries = table.entries();
        // SAFETY: each pointer comes with its slice's length, and the borrows say that none overlaps another.
        unsafe {
            ffi::fjord_open(&mut state, entries.as_ptr(), entries.len(), hold.as_mut_ptr(), hold.len(), &mut answer)
        };
        debug_assert_eq!(answer[0], 0, "a table of 256 entries is accepted");
        Receiver { state, hold }
    }

    /// Reads on in `piece`, and hands out the next frame in it. `None`: the piece is used up, and its rest is held. What was read is taken off the
    /// front of `piece`.
    ///
    /// # Errors
    /// The run stops, by 12 or 16(4), at a header that declares too long a payload; each later call gives the same refusal.
    ///
    /// ```
    /// use fjord_gateway::{KindTable, Memory, Message, Receiver};
    /// let (mut hold, mut memory) = ([0; 64], Memory::new(64, 0, 0));
    /// let mut receiver = Receiver::open(&KindTable::opaque(), &mut hold);
    /// let mut piece = [b'D', 1, 0, 0, 0, 1, 0, 0, 0, 42, b'D'].as_slice();
    /// let frame = receiver.next(&mut piece, memory.lend())?.unwrap();
    /// assert_eq!(frame.message, Ok(Message::Opaque { payload: &[42] }));
    /// assert_eq!(receiver.next(&mut piece, memory.lend())?, None);
    /// assert_eq!(receiver.held(), 1);
    /// # Ok::<(), fjord_gateway::Refusal>(())
    /// ```
    pub fn next<'m>(&mut self, piece: &mut &[u8], lent: Lent<'m>) -> Result<Option<Frame<'m>>, Refusal> {
        let mut answer = [0; 16];
        // SAFETY: each pointer comes with its slice's length, and the borrows say that none overlaps another.
        let result = unsafe {
            ffi::fjord_offer(
                &mut self.state,
                piece.as_ptr(),
                piece.len(),
                self.hold.as_mut_ptr(),
                self.hold.len(),
                lent.text.as_mut_ptr(),
                lent.text.len(),
                lent.rows.as_mut_ptr(),
                lent.rows.len(),
                lent.nodes.as_mut_ptr(),
                lent.nodes.len(),
                &mut answer,
            )
        };
        *piece = &piece[answer[3] as usize..];
        match result {
            0 => Ok(None),
            1 => Ok(Some(Frame {
                header: FrameHeader::of(&answer),
                message: Refusal::of(&answer).map(|()| Message::of(answer[7], &answer[8..14], lent.filled())),
            })),
            _ => Err(Refusal { number: answer[0], a: answer[1], b: answer[2] }),
        }
    }

    /// How many bytes of an unfinished frame are held, header and payload.
    ///
    /// ```
    /// # use fjord_gateway::{KindTable, Memory, Receiver};
    /// # let (mut hold, mut memory) = ([0; 64], Memory::new(64, 0, 0));
    /// let mut receiver = Receiver::open(&KindTable::opaque(), &mut hold);
    /// receiver.next(&mut [b'D', 1].as_slice(), memory.lend())?;
    /// assert_eq!(receiver.held(), 2);
    /// # Ok::<(), fjord_gateway::Refusal>(())
    /// ```
    pub fn held(&self) -> u64 {
        self.state.header_len + self.state.payload_len
    }

    /// The refusal that stopped the run, if one did.
    ///
    /// ```
    /// # use fjord_gateway::{KindTable, Memory, Receiver};
    /// # let (mut hold, mut memory) = ([0; 4], Memory::new(64, 0, 0));
    /// let mut receiver = Receiver::open(&KindTable::opaque(), &mut hold);
    /// let long = [b'D', 1, 0, 0, 0, 5, 0, 0, 0];
    /// assert!(receiver.next(&mut long.as_slice(), memory.lend()).is_err());
    /// assert_eq!(receiver.stopped().unwrap().to_string(), "16 TooSmall(4, 5)");
    /// ```
    pub fn stopped(&self) -> Option<Refusal> {
        let s = &self.state;
        (s.stop != 0).then_some(Refusal { number: s.stop, a: s.stop_a, b: s.stop_b })
    }
}
