//! The session messages, with their texts and rows borrowed from lent memory.
use crate::desc::Desc;
use crate::memory::Filled;

macro_rules! numbered {
    ($(#[$meta:meta])* $name:ident { $($(#[$doc:meta])* $case:ident = $n:literal),+ $(,)? }) => {
        $(#[$meta])*
        #[derive(Clone, Copy, Debug, PartialEq, Eq, Hash, PartialOrd, Ord)]
        #[repr(u8)]
        pub enum $name { $($(#[$doc])* $case = $n),+ }

        impl $name {
            /// By its number, if there is one.
            ///
            /// ```
            #[doc = concat!("use fjord_gateway::", stringify!($name), ";")]
            $(#[doc = concat!("assert_eq!(", stringify!($name), "::from_number(", stringify!($n), "), Some(", stringify!($name), "::", stringify!($case), "));")])+
            #[doc = concat!("assert_eq!(", stringify!($name), "::from_number(13), None);")]
            /// ```
            pub const fn from_number(n: u64) -> Option<Self> {
                match n { $($n => Some($name::$case),)+ _ => None }
            }

            /// Its number.
            ///
            /// ```
            #[doc = concat!("use fjord_gateway::", stringify!($name), ";")]
            $(#[doc = concat!("assert_eq!(", stringify!($name), "::", stringify!($case), ".number(), ", stringify!($n), ");")])+
            /// ```
            pub const fn number(self) -> u64 {
                self as u64
            }
        }
    };
}

numbered! {
    /// Which of the twelve messages, by the number that a kind table has for it.
    ///
    /// ```
    /// use fjord_gateway::MessageKind;
    /// assert_eq!(MessageKind::from_number(11), Some(MessageKind::Fetch));
    /// assert_eq!(MessageKind::Fetch.number(), 11);
    /// ```
    MessageKind {
        /// Opens a session.
        Startup = 1,
        /// The session is open.
        Ready = 2,
        /// A stream failed.
        Error = 3,
        /// A stream finished.
        Complete = 4,
        /// The ids of what was written.
        Ids = 5,
        /// The predicates that a session can name.
        Types = 6,
        /// A request about a database's life.
        Control = 7,
        /// What became of it.
        ControlReply = 8,
        /// What a query examined.
        Profile = 9,
        /// A query, page by page.
        Page = 10,
        /// Asks for facts by their ids.
        Fetch = 11,
        /// The digest of a listing.
        ListingDigest = 12,
    }
}

numbered! {
    /// How a session is opened.
    ///
    /// ```
    /// assert_eq!(fjord_gateway::Mode::from_number(2), None);
    /// ```
    Mode {
        /// It only reads.
        ReadOnly = 0,
        /// It writes too.
        ReadWrite = 1,
    }
}

numbered! {
    /// What a server says went wrong.
    ///
    /// ```
    /// assert_eq!(fjord_gateway::ErrorCode::Busy.number(), 11);
    /// ```
    ErrorCode {
        /// The peer broke the protocol.
        Protocol = 1,
        /// There is no such database.
        UnknownDatabase = 2,
        /// The schemas differ.
        SchemaMismatch = 3,
        /// The mode was refused.
        ModeRefused = 4,
        /// The facts are bad.
        BadFacts = 5,
        /// Somebody else wrote.
        Conflict = 6,
        /// The query is bad.
        BadQuery = 7,
        /// The server failed.
        Internal = 8,
        /// The database is in use.
        InUse = 9,
        /// The request was refused.
        Refused = 10,
        /// The server is busy.
        Busy = 11,
    }
}

numbered! {
    /// A request about a database's life.
    ///
    /// ```
    /// assert_eq!(fjord_gateway::ControlOp::Finish.number(), 2);
    /// ```
    ControlOp {
        /// Create it.
        Create = 1,
        /// Finish it.
        Finish = 2,
        /// Remove it.
        Remove = 3,
    }
}

/// A message. Its texts and rows are borrowed from the memory that was lent.
///
/// ```
/// use fjord_gateway::{decode, Memory, Message, MessageKind};
/// let mut memory = Memory::for_payload(3);
/// let message = decode(MessageKind::Ready, &[4, 1, 2], memory.lend())?;
/// assert_eq!(message, Message::Ready { version: 4, schema_fingerprint: 1, predicates: 2 });
/// # Ok::<(), fjord_gateway::Refusal>(())
/// ```
#[derive(Clone, Debug, PartialEq)]
pub enum Message<'m> {
    /// Opens a session.
    Startup {
        /// The protocol's version.
        version: u32,
        /// Which database.
        database: &'m str,
        /// How.
        mode: Mode,
        /// The fingerprint of the client's schema.
        schema_fingerprint: u64,
        /// The predicates that the client claims to know.
        claims: Claims<'m>,
    },
    /// The session is open.
    Ready {
        /// The protocol's version.
        version: u32,
        /// The fingerprint of the server's schema.
        schema_fingerprint: u64,
        /// How many predicates it has.
        predicates: u64,
    },
    /// A stream failed.
    Error {
        /// Why.
        code: ErrorCode,
        /// In words.
        text: &'m str,
    },
    /// A stream finished, with two counts.
    Complete {
        /// The first count.
        first: u64,
        /// The second count.
        second: u64,
    },
    /// The ids of what was written.
    Ids {
        /// In the order of writing.
        ids: &'m [u64],
    },
    /// The predicates that a session can name.
    Types {
        /// Each with its types.
        types: Types<'m>,
    },
    /// A request about a database's life.
    Control {
        /// What to do.
        op: ControlOp,
        /// With which database.
        database: &'m str,
        /// Whether an empty database may be finished.
        allow_zero_facts: bool,
        /// The schema's source.
        schema: &'m str,
    },
    /// What became of the request.
    Reply(ControlReply<'m>),
    /// What a query examined.
    Profile {
        /// Step by step.
        steps: Steps<'m>,
    },
    /// A query, page by page.
    Page {
        /// The most rows of a page.
        limit: u64,
        /// Where the last page ended, as the server gave it.
        cursor: &'m [u8],
        /// The query.
        query: &'m str,
    },
    /// Asks for facts by their ids.
    Fetch {
        /// The digest of the listing that they come from.
        digest: Option<u64>,
        /// The ids: see [`FactId`].
        ids: &'m [u64],
    },
    /// The digest of a listing.
    ListingDigest {
        /// Whose listing.
        predicate: u32,
        /// Its digest.
        digest: u64,
    },
    /// A payload that is none of the twelve.
    Opaque {
        /// As it came.
        payload: &'m [u8],
    },
}

/// What became of a request about a database's life.
///
/// ```
/// use fjord_gateway::{decode, ControlReply, Memory, Message, MessageKind};
/// let mut memory = Memory::for_payload(1);
/// assert_eq!(decode(MessageKind::ControlReply, &[3], memory.lend())?, Message::Reply(ControlReply::Removed));
/// # Ok::<(), fjord_gateway::Refusal>(())
/// ```
#[derive(Clone, Copy, Debug, PartialEq, Eq)]
pub enum ControlReply<'m> {
    /// It was created.
    Created {
        /// The instance's name.
        instance: &'m str,
    },
    /// It was finished.
    Finished {
        /// Its fingerprint.
        fingerprint: u64,
        /// How many facts it has.
        facts: u64,
        /// How many bytes.
        bytes: u64,
        /// Whether it was finished before.
        already_complete: bool,
    },
    /// It was removed.
    Removed,
}

/// An id of a fact: 24 bits of predicate and 40 of sequence.
///
/// ```
/// let id = fjord_gateway::FactId(2 << 40 | 5);
/// assert_eq!((id.predicate(), id.sequence()), (2, 5));
/// ```
#[derive(Clone, Copy, Debug, PartialEq, Eq, Hash)]
pub struct FactId(pub u64);

impl FactId {
    /// Its predicate.
    ///
    /// ```
    /// assert_eq!(fjord_gateway::FactId(7 << 40).predicate(), 7);
    /// ```
    pub const fn predicate(self) -> u32 {
        (self.0 >> 40) as u32
    }

    /// Its number among the predicate's facts.
    ///
    /// ```
    /// assert_eq!(fjord_gateway::FactId(7 << 40 | 300).sequence(), 300);
    /// ```
    pub const fn sequence(self) -> u64 {
        self.0 & ((1 << 40) - 1)
    }
}

macro_rules! rows {
    ($(#[$meta:meta])* $rows:ident of $row:ident, $width:literal, $make:expr) => {
        $(#[$meta])*
        #[derive(Clone, Copy, Debug)]
        pub struct $rows<'m> {
            memory: Filled<'m>,
            count: usize,
            next: usize,
        }

        impl<'m> $rows<'m> {
            pub(crate) fn new(memory: Filled<'m>, count: u64) -> Self {
                $rows { memory, count: count as usize, next: 0 }
            }
        }

        impl<'m> Iterator for $rows<'m> {
            type Item = $row<'m>;

            fn next(&mut self) -> Option<$row<'m>> {
                if self.next == self.count {
                    return None;
                }
                let row = &self.memory.rows[self.next * $width..][..$width];
                self.next += 1;
                let make: fn(Filled<'m>, &[u64]) -> $row<'m> = $make;
                Some(make(self.memory, row))
            }

            fn size_hint(&self) -> (usize, Option<usize>) {
                let left = self.count - self.next;
                (left, Some(left))
            }
        }

        impl ExactSizeIterator for $rows<'_> {}

        impl PartialEq for $rows<'_> {
            fn eq(&self, other: &Self) -> bool {
                self.clone().eq(*other)
            }
        }
    };
}

/// A predicate that a client claims to know.
///
/// ```
/// use fjord_gateway::{Claim, Draft, Mode};
/// let claim = Claim { name: "Drug", fingerprint: 9 };
/// let payload = Draft::startup(4, "", Mode::ReadOnly, 0, [claim]).to_vec()?;
/// assert_eq!(payload, [4, 0, 0, 0, 1, 4, b'D', b'r', b'u', b'g', 9]);
/// # Ok::<(), fjord_gateway::Refusal>(())
/// ```
#[derive(Clone, Copy, Debug, PartialEq, Eq)]
pub struct Claim<'m> {
    /// Its name.
    pub name: &'m str,
    /// Its fingerprint.
    pub fingerprint: u64,
}

rows! {
    /// The claims of a startup, one after the other.
    ///
    /// ```
    /// use fjord_gateway::{decode, Memory, Message, MessageKind};
    /// let payload = [4, 0, 0, 0, 1, 4, b'D', b'r', b'u', b'g', 9];
    /// let mut memory = Memory::for_payload(payload.len());
    /// let Message::Startup { mut claims, .. } = decode(MessageKind::Startup, &payload, memory.lend())? else { panic!() };
    /// assert_eq!(claims.len(), 1);
    /// assert_eq!(claims.next().unwrap().name, "Drug");
    /// # Ok::<(), fjord_gateway::Refusal>(())
    /// ```
    Claims of Claim, 3, |m, r| Claim { name: m.str(r[0], r[1]), fingerprint: r[2] }
}

/// A predicate that a session can name.
///
/// ```
/// use fjord_gateway::{decode, DescKind, Memory, Message, MessageKind};
/// let payload = [1, 7, 4, b'D', b'r', b'u', b'g', 1, 0, 1, 5];
/// let mut memory = Memory::for_payload(payload.len());
/// let Message::Types { mut types } = decode(MessageKind::Types, &payload, memory.lend())? else { panic!() };
/// let drug = types.next().unwrap();
/// assert!(drug.is_virtual);
/// assert_eq!((drug.key.kind(), drug.value.unwrap().kind()), (DescKind::Int, DescKind::Bytes));
/// # Ok::<(), fjord_gateway::Refusal>(())
/// ```
#[derive(Clone, Copy, Debug, PartialEq)]
pub struct Predicate<'m> {
    /// Its id.
    pub id: u32,
    /// Its name.
    pub name: &'m str,
    /// Whether its facts are computed and never written.
    pub is_virtual: bool,
    /// The type of its key.
    pub key: Desc<'m>,
    /// The type of its value, if it has one.
    pub value: Option<Desc<'m>>,
}

rows! {
    /// The predicates of a types message.
    ///
    /// ```
    /// use fjord_gateway::{decode, DescKind, Memory, Message, MessageKind};
    /// let payload = [1, 7, 4, b'D', b'r', b'u', b'g', 0, 1, 0];
    /// let mut memory = Memory::for_payload(payload.len());
    /// let Message::Types { mut types } = decode(MessageKind::Types, &payload, memory.lend())? else { panic!() };
    /// let drug = types.next().unwrap();
    /// assert_eq!((drug.id, drug.name, drug.key.kind()), (7, "Drug", DescKind::String));
    /// # Ok::<(), fjord_gateway::Refusal>(())
    /// ```
    Types of Predicate, 6, |m, r| {
        let key = Desc::at(m, r[5]);
        Predicate {
            id: r[0] as u32,
            name: m.str(r[1], r[2]),
            is_virtual: r[3] != 0,
            key,
            value: (r[4] != 0).then(|| Desc::at(m, key.end())),
        }
    }
}

/// A step of a query's plan.
///
/// ```
/// use fjord_gateway::{Draft, Step};
/// let step = Step { label: "scan", examined: 300, full_scan: false };
/// assert_eq!(Draft::profile([step]).to_vec()?, b"\x01\x04scan\xAC\x02\x00");
/// # Ok::<(), fjord_gateway::Refusal>(())
/// ```
#[derive(Clone, Copy, Debug, PartialEq, Eq)]
pub struct Step<'m> {
    /// What it does.
    pub label: &'m str,
    /// How many facts it examined.
    pub examined: u64,
    /// Whether it scanned all of them.
    pub full_scan: bool,
}

rows! {
    /// The steps of a profile.
    ///
    /// ```
    /// use fjord_gateway::{decode, Memory, Message, MessageKind, Step};
    /// let payload = [1, 4, b's', b'c', b'a', b'n', 9, 1];
    /// let mut memory = Memory::for_payload(payload.len());
    /// let Message::Profile { mut steps } = decode(MessageKind::Profile, &payload, memory.lend())? else { panic!() };
    /// assert_eq!(steps.next(), Some(Step { label: "scan", examined: 9, full_scan: true }));
    /// # Ok::<(), fjord_gateway::Refusal>(())
    /// ```
    Steps of Step, 4, |m, r| Step { label: m.str(r[0], r[1]), examined: r[2], full_scan: r[3] != 0 }
}

impl<'m> Message<'m> {
    /// The message that an accepted answer's number and fields say, in the memory that it filled.
    pub(crate) fn of(number: u64, f: &[u64], m: Filled<'m>) -> Self {
        let known = "the library gives known numbers";
        match number {
            1 => Message::Startup {
                version: f[0] as u32,
                database: m.str(f[1], f[2]),
                mode: Mode::from_number(f[3]).expect(known),
                schema_fingerprint: f[4],
                claims: Claims::new(m, f[5]),
            },
            2 => Message::Ready { version: f[0] as u32, schema_fingerprint: f[1], predicates: f[2] },
            3 => Message::Error { code: ErrorCode::from_number(f[0]).expect(known), text: m.str(f[1], f[2]) },
            4 => Message::Complete { first: f[0], second: f[1] },
            5 => Message::Ids { ids: &m.rows[..f[0] as usize] },
            6 => Message::Types { types: Types::new(m, f[0]) },
            7 => Message::Control {
                op: ControlOp::from_number(f[0]).expect(known),
                database: m.str(f[1], f[2]),
                allow_zero_facts: f[3] != 0,
                schema: m.str(f[4], f[5]),
            },
            8 => Message::Reply(match ControlOp::from_number(f[0]).expect(known) {
                ControlOp::Create => ControlReply::Created { instance: m.str(f[1], f[2]) },
                ControlOp::Finish => {
                    ControlReply::Finished { fingerprint: f[1], facts: f[2], bytes: f[3], already_complete: f[4] != 0 }
                }
                ControlOp::Remove => ControlReply::Removed,
            }),
            9 => Message::Profile { steps: Steps::new(m, f[0]) },
            10 => Message::Page { limit: f[0], cursor: m.bytes(f[1], f[2]), query: m.str(f[3], f[4]) },
            11 => Message::Fetch { digest: (f[0] != 0).then_some(f[1]), ids: &m.rows[..f[2] as usize] },
            12 => Message::ListingDigest { predicate: f[0] as u32, digest: f[1] },
            _ => Message::Opaque { payload: m.bytes(f[0], f[1]) },
        }
    }
}
