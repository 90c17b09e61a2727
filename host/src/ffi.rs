//! The C entry points, as `include/fjord_wire.h` declares them.
//!
//! Nothing checks these declarations against the library's source, so the tests call every one of them.
//!
//! # Safety
//! Each pointer comes with its length in elements and may be read, or written where it is `*mut`, for the call; what is written overlaps nothing else that is passed.
//!
//! ```
//! use fjord_gateway::ffi;
//! let (mut out, mut answer) = ([9; 2], [9; 16]);
//! // SAFETY: the pointer comes with its length.
//! assert_eq!(unsafe { ffi::fjord_put_u64(7, out.as_mut_ptr(), 2, &mut answer) }, 0);
//! assert_eq!(out, [7, 0]);
//! ```

/// A receiver: plain numbers, which the host may keep anywhere and copy.
///
/// ```
/// assert_eq!(std::mem::size_of::<fjord_gateway::ffi::Receiver>(), 320);
/// ```
#[repr(C)]
#[derive(Clone, Copy, Debug, PartialEq, Eq)]
pub struct Receiver {
    /// The message that each kind byte names, 1 to 12; any other number: an opaque payload.
    pub table: [u8; 256],
    /// The header bytes held, zeros after them.
    pub header: [u8; 9],
    /// How many header bytes are held.
    pub header_len: u64,
    /// How many payload bytes are held.
    pub payload_len: u64,
    /// The hold's length at the opening.
    pub hold_len: u64,
    /// The stop's refusal: its number, 0 while the receiver runs.
    pub stop: u64,
    /// The stop's first detail.
    pub stop_a: u64,
    /// The stop's second detail.
    pub stop_b: u64,
}

impl Receiver {
    /// A receiver before its first opening.
    ///
    /// ```
    /// assert_eq!(fjord_gateway::ffi::Receiver::unopened().hold_len, 0);
    /// ```
    pub const fn unopened() -> Self {
        Receiver {
            table: [0; 256],
            header: [0; 9],
            header_len: 0,
            payload_len: 0,
            hold_len: 0,
            stop: 0,
            stop_a: 0,
            stop_b: 0,
        }
    }
}

/// What every call answers: the refusal and its details, then what the call gives, by fixed places.
///
/// ```
/// let mut answer: fjord_gateway::ffi::Answer = [0; 16];
/// // SAFETY: the pointer comes with its length.
/// unsafe { fjord_gateway::ffi::fjord_get_u64([0x80].as_ptr(), 1, &mut answer) };
/// assert_eq!(answer[0], 1);
/// ```
pub type Answer = [u64; 16];

extern "C" {
    /// Decodes the payload of the message that `entry` names, 1 to 12; any other entry: as opaque.
    ///
    /// ```
    /// use fjord_gateway::ffi;
    /// let (payload, mut text, mut answer) = (b"\x08\x07Insulin", *b"Morphine sulfate", [9; 16]);
    /// let (mut rows, mut nodes) = ([9; 1], [9; 1]);
    /// let (r, n) = (rows.as_mut_ptr(), nodes.as_mut_ptr());
    /// // SAFETY: each pointer comes with its length, and no two buffers overlap.
    /// let result = unsafe {
    ///     ffi::fjord_decode(3, payload.as_ptr(), 9, text.as_mut_ptr(), 16, r, 1, n, 1, &mut answer)
    /// };
    /// assert_eq!((result, answer[7], &text, rows, nodes), (0, 3, b"Insulin\0\0\0\0\0\0\0\0\0", [0], [0]));
    /// ```
    pub fn fjord_decode(
        entry: u64,
        payload: *const u8,
        payload_len: usize,
        text: *mut u8,
        text_len: usize,
        rows: *mut u64,
        rows_len: usize,
        nodes: *mut u64,
        nodes_len: usize,
        answer: *mut Answer,
    ) -> u64;
    /// Decodes the descriptor at the start of a payload.
    ///
    /// ```
    /// use fjord_gateway::ffi;
    /// let (payload, mut answer, mut nodes) = ([2, 7, 9], [9; 16], [9; 7]);
    /// let (mut text, mut rows) = ([9; 1], [9; 1]);
    /// let (t, r, n) = (text.as_mut_ptr(), rows.as_mut_ptr(), nodes.as_mut_ptr());
    /// // SAFETY: each pointer comes with its length, and no two buffers overlap.
    /// let result = unsafe { ffi::fjord_decode_desc(payload.as_ptr(), 3, t, 1, r, 1, n, 7, &mut answer) };
    /// assert_eq!((result, answer[3], nodes), (0, 2, [2, 0, 0, 0, 7, 0, 1]));
    /// ```
    pub fn fjord_decode_desc(
        payload: *const u8,
        payload_len: usize,
        text: *mut u8,
        text_len: usize,
        rows: *mut u64,
        rows_len: usize,
        nodes: *mut u64,
        nodes_len: usize,
        answer: *mut Answer,
    ) -> u64;
    /// Encodes the message of a number, 1 to 12, from its fields and the memory that they speak of.
    ///
    /// ```
    /// use fjord_gateway::ffi;
    /// let (fields, text, mut out, mut answer) = ([8, 0, 7, 0, 0, 0], b"Insulin", [9; 10], [9; 16]);
    /// let none = std::ptr::NonNull::<u64>::dangling().as_ptr();
    /// // SAFETY: each pointer comes with its length, and no two buffers overlap.
    /// let result = unsafe {
    ///     ffi::fjord_encode(3, &fields, text.as_ptr(), 7, none, 0, none, 0, out.as_mut_ptr(), 10, &mut answer)
    /// };
    /// assert_eq!((result, answer[3], &out), (0, 9, b"\x08\x07Insulin\0"));
    /// ```
    pub fn fjord_encode(
        number: u64,
        fields: *const [u64; 6],
        text: *const u8,
        text_len: usize,
        rows: *const u64,
        rows_len: usize,
        nodes: *const u64,
        nodes_len: usize,
        out: *mut u8,
        out_len: usize,
        answer: *mut Answer,
    ) -> u64;
    /// Encodes the descriptor that a node table and its texts make.
    ///
    /// ```
    /// use fjord_gateway::ffi;
    /// let (nodes, mut out, mut answer) = ([2, 0, 0, 0, 7, 0, 1], [9; 3], [9; 16]);
    /// // SAFETY: each pointer comes with its length, and no two buffers overlap.
    /// let result = unsafe {
    ///     ffi::fjord_encode_desc([].as_ptr(), 0, nodes.as_ptr(), 7, out.as_mut_ptr(), 3, &mut answer)
    /// };
    /// assert_eq!((result, answer[3], out), (0, 2, [2, 7, 0]));
    /// ```
    pub fn fjord_encode_desc(
        text: *const u8,
        text_len: usize,
        nodes: *const u64,
        nodes_len: usize,
        out: *mut u8,
        out_len: usize,
        answer: *mut Answer,
    ) -> u64;
    /// Writes a frame, and zeros after it.
    ///
    /// ```
    /// use fjord_gateway::ffi;
    /// let (mut out, mut answer) = ([9; 11], [9; 16]);
    /// // SAFETY: each pointer comes with its length, and no two buffers overlap.
    /// let result = unsafe { ffi::fjord_encode_frame(b'D', 1, [42].as_ptr(), 1, out.as_mut_ptr(), 11, &mut answer) };
    /// assert_eq!((result, answer[3], out), (0, 10, [b'D', 1, 0, 0, 0, 1, 0, 0, 0, 42, 0]));
    /// ```
    pub fn fjord_encode_frame(
        kind: u8,
        stream: u32,
        payload: *const u8,
        payload_len: usize,
        out: *mut u8,
        out_len: usize,
        answer: *mut Answer,
    ) -> u64;
    /// Reads a frame's header.
    ///
    /// ```
    /// use fjord_gateway::ffi;
    /// let mut answer = [9; 16];
    /// // SAFETY: the pointer comes with its length.
    /// let result = unsafe { ffi::fjord_decode_header([b'D', 1, 0, 0, 0, 5, 0, 0, 0].as_ptr(), 9, &mut answer) };
    /// assert_eq!((result, &answer[4..7]), (0, [68, 1, 5].as_slice()));
    /// ```
    pub fn fjord_decode_header(bytes: *const u8, len: usize, answer: *mut Answer) -> u64;
    /// Reads the frame at the start of the bytes; its payload stands behind the ninth.
    ///
    /// ```
    /// use fjord_gateway::ffi;
    /// let mut answer = [9; 16];
    /// // SAFETY: the pointer comes with its length.
    /// let result = unsafe { ffi::fjord_decode_frame([b'D', 1, 0, 0, 0, 1, 0, 0, 0, 42, 7].as_ptr(), 11, &mut answer) };
    /// assert_eq!((result, answer[3], answer[6]), (0, 10, 1));
    /// ```
    pub fn fjord_decode_frame(bytes: *const u8, len: usize, answer: *mut Answer) -> u64;
    /// Reads the varint at the start of the bytes.
    ///
    /// ```
    /// use fjord_gateway::ffi;
    /// let mut answer = [9; 16];
    /// // SAFETY: the pointer comes with its length.
    /// let result = unsafe { ffi::fjord_get_u64([0x80, 0x01, 7].as_ptr(), 3, &mut answer) };
    /// assert_eq!((result, answer[3], answer[8]), (0, 2, 128));
    /// ```
    pub fn fjord_get_u64(bytes: *const u8, len: usize, answer: *mut Answer) -> u64;
    /// Writes a varint alone, and zeros after it.
    ///
    /// ```
    /// use fjord_gateway::ffi;
    /// let (mut out, mut answer) = ([9; 3], [9; 16]);
    /// // SAFETY: the pointer comes with its length.
    /// let result = unsafe { ffi::fjord_put_u64(128, out.as_mut_ptr(), 3, &mut answer) };
    /// assert_eq!((result, answer[3], out), (0, 2, [0x80, 0x01, 0]));
    /// ```
    pub fn fjord_put_u64(value: u64, out: *mut u8, out_len: usize, answer: *mut Answer) -> u64;
    /// Puts a text in a display slot, and spaces after it.
    ///
    /// ```
    /// use fjord_gateway::ffi;
    /// let (text, mut slot, mut answer) = (b"Insulin", *b"Morphine sulfate", [9; 16]);
    /// // SAFETY: each pointer comes with its length, and no two buffers overlap.
    /// let result = unsafe { ffi::fjord_put_slot(text.as_ptr(), 7, 0, 7, slot.as_mut_ptr(), 16, &mut answer) };
    /// assert_eq!((result, &slot), (0, b"Insulin         "));
    /// ```
    pub fn fjord_put_slot(
        text: *const u8,
        text_len: usize,
        start: u64,
        length: u64,
        slot: *mut u8,
        slot_len: usize,
        answer: *mut Answer,
    ) -> u64;
    /// Opens a receiver over a kind table of 256 entries and a hold, which it clears.
    ///
    /// ```
    /// use fjord_gateway::ffi;
    /// let (mut receiver, mut hold, mut answer) = (ffi::Receiver::unopened(), [9; 4], [9; 16]);
    /// // SAFETY: each pointer comes with its length, and no two buffers overlap.
    /// let result = unsafe { ffi::fjord_open(&mut receiver, [0; 256].as_ptr(), 256, hold.as_mut_ptr(), 4, &mut answer) };
    /// assert_eq!((result, hold, receiver.hold_len), (0, [0; 4], 4));
    /// let short = unsafe { ffi::fjord_open(&mut receiver, [0; 255].as_ptr(), 255, hold.as_mut_ptr(), 4, &mut answer) };
    /// assert_eq!((short, answer[1]), (18, 255));
    /// ```
    pub fn fjord_open(
        receiver: *mut Receiver,
        table: *const u8,
        table_len: usize,
        hold: *mut u8,
        hold_len: usize,
        answer: *mut Answer,
    ) -> u64;
    /// Offers a piece: 0, it is used up; 1, a frame is handed out; 2, the run stops; 3, the offer is refused.
    ///
    /// ```
    /// use fjord_gateway::ffi;
    /// let (mut receiver, mut hold, mut answer) = (ffi::Receiver::unopened(), [0; 4], [9; 16]);
    /// let (mut text, mut rows, mut nodes) = ([9; 4], [9; 1], [9; 1]);
    /// let (t, r, n) = (text.as_mut_ptr(), rows.as_mut_ptr(), nodes.as_mut_ptr());
    /// let piece = [b'D', 1, 0, 0, 0, 1, 0, 0, 0, 42, b'D'];
    /// // SAFETY: each pointer comes with its length, and no two buffers overlap.
    /// let result = unsafe {
    ///     ffi::fjord_open(&mut receiver, [0; 256].as_ptr(), 256, hold.as_mut_ptr(), 4, &mut answer);
    ///     ffi::fjord_offer(&mut receiver, piece.as_ptr(), 11, hold.as_mut_ptr(), 4, t, 4, r, 1, n, 1, &mut answer)
    /// };
    /// assert_eq!((result, answer[3], text), (1, 10, [42, 0, 0, 0]));
    /// ```
    pub fn fjord_offer(
        receiver: *mut Receiver,
        piece: *const u8,
        piece_len: usize,
        hold: *mut u8,
        hold_len: usize,
        text: *mut u8,
        text_len: usize,
        rows: *mut u64,
        rows_len: usize,
        nodes: *mut u64,
        nodes_len: usize,
        answer: *mut Answer,
    ) -> u64;
}
