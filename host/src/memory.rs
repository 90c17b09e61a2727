//! The memory that is lent to a decoder.

/// Three buffers that a decoder writes: text bytes, rows and nodes. An accepted call leaves zeros behind what it wrote, a refused one writes nothing.
///
/// ```
/// use fjord_gateway::{decode, Lent, MessageKind};
/// let (mut text, mut rows, mut nodes) = ([9; 4], [9; 1], [9; 1]);
/// let lent = Lent { text: &mut text, rows: &mut rows, nodes: &mut nodes };
/// decode(MessageKind::Error, &[7, 2, b'h', b'i'], lent)?;
/// assert_eq!((&text, rows, nodes), (b"hi\0\0", [0], [0]));
/// # Ok::<(), fjord_gateway::Refusal>(())
/// ```
#[derive(Debug)]
pub struct Lent<'m> {
    /// The texts of a message, joined in reading order.
    pub text: &'m mut [u8],
    /// Its rows, as numbers.
    pub rows: &'m mut [u64],
    /// Its descriptors' nodes, seven numbers each.
    pub nodes: &'m mut [u64],
}

/// What was lent, as it stands after an accepted call.
#[derive(Clone, Copy, Debug)]
pub(crate) struct Filled<'m> {
    pub(crate) text: &'m [u8],
    pub(crate) rows: &'m [u64],
    pub(crate) nodes: &'m [u64],
}

impl<'m> Lent<'m> {
    pub(crate) fn filled(self) -> Filled<'m> {
        Filled { text: self.text, rows: self.rows, nodes: self.nodes }
    }
}

impl<'m> Filled<'m> {
    /// A text that the library said is there, so inside and UTF-8.
    pub(crate) fn str(&self, start: u64, len: u64) -> &'m str {
        std::str::from_utf8(self.bytes(start, len)).expect("the library checks each text")
    }

    pub(crate) fn bytes(&self, start: u64, len: u64) -> &'m [u8] {
        &self.text[start as usize..][..len as usize]
    }
}

/// Memory of its own, for a caller that has a heap.
///
/// ```
/// use fjord_gateway::{decode, Memory, Message, MessageKind};
/// let payload = [1, 7, b'I', b'n', b's', b'u', b'l', b'i', b'n'];
/// let mut memory = Memory::for_payload(payload.len());
/// let Message::Error { text, .. } = decode(MessageKind::Error, &payload, memory.lend())? else { panic!() };
/// assert_eq!(text, "Insulin");
/// # Ok::<(), fjord_gateway::Refusal>(())
/// ```
#[derive(Clone, Debug, PartialEq, Eq)]
pub struct Memory {
    text: Vec<u8>,
    rows: Vec<u64>,
    nodes: Vec<u64>,
}

impl Memory {
    /// Buffers of so many bytes of text and numbers of rows and of nodes.
    ///
    /// ```
    /// let mut memory = fjord_gateway::Memory::new(64, 8, 7);
    /// assert_eq!(memory.lend().nodes.len(), 7);
    /// ```
    pub fn new(text: usize, rows: usize, nodes: usize) -> Self {
        Memory { text: vec![0; text], rows: vec![0; rows], nodes: vec![0; nodes] }
    }

    /// Enough for every message whose payload has `len` bytes: text of `len` bytes, rows of twice and nodes of seven times as many numbers
    /// (the library's theorem `message_sizes`).
    ///
    /// ```
    /// let mut memory = fjord_gateway::Memory::for_payload(10);
    /// assert_eq!(memory.lend().rows.len(), 20);
    /// ```
    pub fn for_payload(len: usize) -> Self {
        Memory::new(len, 2 * len, 7 * len)
    }

    /// Lends the three buffers to a call.
    ///
    /// ```
    /// let mut memory = fjord_gateway::Memory::new(1, 0, 0);
    /// memory.lend().text[0] = 7;
    /// assert_eq!(memory.lend().text, [7]);
    /// ```
    pub fn lend(&mut self) -> Lent<'_> {
        Lent { text: &mut self.text, rows: &mut self.rows, nodes: &mut self.nodes }
    }
}
