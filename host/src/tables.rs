//! Which message each kind of frame carries.
use crate::message::MessageKind;

/// The message of each kind byte; a kind without one is opaque.
///
/// The two directions of a session have tables of their own, because `G` means two things: a client asks for a page by it, a server opens a
/// copy.
///
/// ```
/// use fjord_gateway::{KindTable, MessageKind};
/// assert_eq!(KindTable::from_client().message(b'G'), Some(MessageKind::Page));
/// assert_eq!(KindTable::from_server().message(b'G'), None);
/// ```
#[derive(Clone, Debug, PartialEq, Eq)]
pub struct KindTable {
    entries: [u8; 256],
}

impl KindTable {
    /// Every kind is opaque.
    ///
    /// ```
    /// assert_eq!(fjord_gateway::KindTable::opaque().message(b'S'), None);
    /// ```
    pub const fn opaque() -> Self {
        KindTable { entries: [0; 256] }
    }

    /// This table with one kind more.
    ///
    /// ```
    /// use fjord_gateway::{KindTable, MessageKind};
    /// let table = KindTable::opaque().with(b'i', MessageKind::Ids);
    /// assert_eq!(table.message(b'i'), Some(MessageKind::Ids));
    /// ```
    pub const fn with(mut self, kind: u8, message: MessageKind) -> Self {
        self.entries[kind as usize] = message as u8;
        self
    }

    /// What a client sends: startup, control, page and fetch; an error may come from either side.
    ///
    /// ```
    /// use fjord_gateway::{KindTable, MessageKind};
    /// assert_eq!(KindTable::from_client().message(b'G'), Some(MessageKind::Page));
    /// ```
    pub const fn from_client() -> Self {
        KindTable::opaque()
            .with(b'S', MessageKind::Startup)
            .with(b'L', MessageKind::Control)
            .with(b'G', MessageKind::Page)
            .with(b'F', MessageKind::Fetch)
            .with(b'E', MessageKind::Error)
    }

    /// What a server sends: ready, error, complete, ids, types, control reply, profile and listing digest.
    ///
    /// ```
    /// use fjord_gateway::{KindTable, MessageKind};
    /// let table = KindTable::from_server();
    /// assert_eq!(table.message(b'y'), Some(MessageKind::Types));
    /// assert_eq!(table.message(b'G'), None);
    /// ```
    pub const fn from_server() -> Self {
        KindTable::opaque()
            .with(b'R', MessageKind::Ready)
            .with(b'E', MessageKind::Error)
            .with(b'C', MessageKind::Complete)
            .with(b'i', MessageKind::Ids)
            .with(b'y', MessageKind::Types)
            .with(b'M', MessageKind::ControlReply)
            .with(b'p', MessageKind::Profile)
            .with(b'l', MessageKind::ListingDigest)
    }

    /// The message of a kind.
    ///
    /// ```
    /// use fjord_gateway::{KindTable, MessageKind};
    /// assert_eq!(KindTable::from_server().message(b'R'), Some(MessageKind::Ready));
    /// ```
    pub const fn message(&self, kind: u8) -> Option<MessageKind> {
        MessageKind::from_number(self.entries[kind as usize] as u64)
    }

    /// The 256 entries, as the library takes them.
    pub(crate) const fn entries(&self) -> &[u8; 256] {
        &self.entries
    }
}
