//! Encoding a message: a draft lays its texts, rows and nodes out, and the library writes the payload.
use crate::desc::{Desc, DescKind};
use crate::ffi;
use crate::message::{Claim, ControlOp, ControlReply, ErrorCode, Message, MessageKind, Mode, Step};
use crate::refusal::Refusal;

/// A type descriptor to be sent.
///
/// ```
/// use fjord_gateway::Shape;
/// let dose = Shape::Record(vec![("amount".into(), Shape::Int), ("unit".into(), Shape::String)]);
/// assert_eq!(dose.to_vec()?, [&[3, 2, 6][..], b"amount", &[0, 4], b"unit", &[1]].concat());
/// # Ok::<(), fjord_gateway::Refusal>(())
/// ```
#[derive(Clone, Debug, PartialEq, Eq)]
pub enum Shape {
    /// A number.
    Int,
    /// A text.
    String,
    /// A fact of a predicate.
    Fact(u32),
    /// Named fields.
    Record(Vec<(String, Shape)>),
    /// Named alternatives with their discriminants.
    Union(Vec<(String, u32, Shape)>),
    /// Bytes.
    Bytes,
}

impl From<Desc<'_>> for Shape {
    fn from(desc: Desc<'_>) -> Self {
        match desc.kind() {
            DescKind::Int => Shape::Int,
            DescKind::String => Shape::String,
            DescKind::Fact(predicate) => Shape::Fact(predicate),
            DescKind::Record(fields) => {
                Shape::Record(fields.into_iter().map(|f| (f.name.to_string(), f.desc.into())).collect())
            }
            DescKind::Union(alternatives) => Shape::Union(
                alternatives.into_iter().map(|a| (a.name.to_string(), a.discriminant, a.desc.into())).collect(),
            ),
            DescKind::Bytes => Shape::Bytes,
        }
    }
}

impl Shape {
    /// The descriptor's bytes.
    ///
    /// ```
    /// assert_eq!(fjord_gateway::Shape::Fact(300).to_vec()?, [2, 0xAC, 0x02]);
    /// # Ok::<(), fjord_gateway::Refusal>(())
    /// ```
    pub fn to_vec(&self) -> Result<Vec<u8>, Refusal> {
        let mut draft = Draft::new(MessageKind::Types, [0; 6]);
        draft.add_shape(self, (0, 0), 0);
        grown(|out| {
            let mut answer = [0; 16];
            // SAFETY: each pointer comes with its slice's length, and the borrows say that none overlaps another.
            unsafe {
                ffi::fjord_encode_desc(
                    draft.text.as_ptr(),
                    draft.text.len(),
                    draft.nodes.as_ptr(),
                    draft.nodes.len(),
                    out.as_mut_ptr(),
                    out.len(),
                    &mut answer,
                )
            };
            Refusal::of(&answer).map(|()| answer[3] as usize)
        })
    }
}

/// A predicate to be sent in a types message.
///
/// ```
/// use fjord_gateway::{Draft, PredicateShape, Shape};
/// let drug = PredicateShape { id: 7, name: "Drug", is_virtual: false, key: Shape::String, value: None };
/// assert_eq!(Draft::types([drug]).to_vec()?, [&[1, 7, 4][..], b"Drug", &[0, 1, 0]].concat());
/// # Ok::<(), fjord_gateway::Refusal>(())
/// ```
#[derive(Clone, Debug, PartialEq, Eq)]
pub struct PredicateShape<'a> {
    /// Its id.
    pub id: u32,
    /// Its name.
    pub name: &'a str,
    /// Whether its facts are computed and never written.
    pub is_virtual: bool,
    /// The type of its key.
    pub key: Shape,
    /// The type of its value, if it has one.
    pub value: Option<Shape>,
}

/// A message to be encoded, in memory of its own.
///
/// ```
/// use fjord_gateway::{decode, Draft, ErrorCode, Memory, Message, MessageKind};
/// let payload = Draft::error(ErrorCode::Busy, "later").to_vec()?;
/// let mut memory = Memory::for_payload(payload.len());
/// let message = decode(MessageKind::Error, &payload, memory.lend())?;
/// assert_eq!(message, Message::Error { code: ErrorCode::Busy, text: "later" });
/// assert_eq!(Draft::from(&message).to_vec()?, payload);
/// # Ok::<(), fjord_gateway::Refusal>(())
/// ```
#[derive(Clone, Debug, PartialEq, Eq)]
pub struct Draft {
    number: u64,
    fields: [u64; 6],
    text: Vec<u8>,
    rows: Vec<u64>,
    nodes: Vec<u64>,
}

impl Draft {
    fn new(kind: MessageKind, fields: [u64; 6]) -> Self {
        Draft { number: kind.number(), fields, text: Vec::new(), rows: Vec::new(), nodes: Vec::new() }
    }

    /// Adds a text, and says where it stands.
    fn add(&mut self, text: &[u8]) -> (u64, u64) {
        let start = self.text.len() as u64;
        self.text.extend_from_slice(text);
        (start, text.len() as u64)
    }

    /// Adds a descriptor's nodes, its parent first; `name` is its own in the parent, and a root's is 0, 0.
    fn add_shape(&mut self, shape: &Shape, name: (u64, u64), discriminant: u32) {
        let at = self.nodes.len();
        let (tag, predicate, count) = match shape {
            Shape::Int => (0, 0, 0),
            Shape::String => (1, 0, 0),
            Shape::Fact(predicate) => (2, *predicate, 0),
            Shape::Record(fields) => (3, 0, fields.len()),
            Shape::Union(alternatives) => (4, 0, alternatives.len()),
            Shape::Bytes => (5, 0, 0),
        };
        self.nodes.extend([tag, name.0, name.1, discriminant.into(), predicate.into(), count as u64, 0]);
        match shape {
            Shape::Record(fields) => {
                for (name, shape) in fields {
                    let name = self.add(name.as_bytes());
                    self.add_shape(shape, name, 0);
                }
            }
            Shape::Union(alternatives) => {
                for (name, discriminant, shape) in alternatives {
                    let name = self.add(name.as_bytes());
                    self.add_shape(shape, name, *discriminant);
                }
            }
            _ => {}
        }
        self.nodes[at + 6] = (self.nodes.len() / 7) as u64;
    }

    /// Opens a session.
    ///
    /// ```
    /// use fjord_gateway::{Draft, Mode};
    /// assert_eq!(Draft::startup(4, "w", Mode::ReadOnly, 0, []).to_vec()?, [4, 1, b'w', 0, 0, 0]);
    /// # Ok::<(), fjord_gateway::Refusal>(())
    /// ```
    pub fn startup<'a>(
        version: u32,
        database: &str,
        mode: Mode,
        schema_fingerprint: u64,
        claims: impl IntoIterator<Item = Claim<'a>>,
    ) -> Self {
        let mut d = Draft::new(MessageKind::Startup, [0; 6]);
        let (start, len) = d.add(database.as_bytes());
        for claim in claims {
            let (start, len) = d.add(claim.name.as_bytes());
            d.rows.extend([start, len, claim.fingerprint]);
        }
        let count = d.rows.len() as u64 / 3;
        d.fields = [version.into(), start, len, mode.number(), schema_fingerprint, count];
        d
    }

    /// The session is open.
    ///
    /// ```
    /// assert_eq!(fjord_gateway::Draft::ready(4, 1, 2).to_vec()?, [4, 1, 2]);
    /// # Ok::<(), fjord_gateway::Refusal>(())
    /// ```
    pub fn ready(version: u32, schema_fingerprint: u64, predicates: u64) -> Self {
        Draft::new(MessageKind::Ready, [version.into(), schema_fingerprint, predicates, 0, 0, 0])
    }

    /// A stream failed.
    ///
    /// ```
    /// use fjord_gateway::{Draft, ErrorCode};
    /// assert_eq!(Draft::error(ErrorCode::InUse, "").to_vec()?, [9, 0]);
    /// # Ok::<(), fjord_gateway::Refusal>(())
    /// ```
    pub fn error(code: ErrorCode, text: &str) -> Self {
        let mut d = Draft::new(MessageKind::Error, [0; 6]);
        let (start, len) = d.add(text.as_bytes());
        d.fields = [code.number(), start, len, 0, 0, 0];
        d
    }

    /// A stream finished, with two counts.
    ///
    /// ```
    /// assert_eq!(fjord_gateway::Draft::complete(1, 128).to_vec()?, [1, 0x80, 1]);
    /// # Ok::<(), fjord_gateway::Refusal>(())
    /// ```
    pub fn complete(first: u64, second: u64) -> Self {
        Draft::new(MessageKind::Complete, [first, second, 0, 0, 0, 0])
    }

    /// The ids of what was written.
    ///
    /// ```
    /// assert_eq!(fjord_gateway::Draft::ids(&[7, 8]).to_vec()?, [2, 7, 8]);
    /// # Ok::<(), fjord_gateway::Refusal>(())
    /// ```
    pub fn ids(ids: &[u64]) -> Self {
        let mut d = Draft::new(MessageKind::Ids, [ids.len() as u64, 0, 0, 0, 0, 0]);
        d.rows.extend_from_slice(ids);
        d
    }

    /// The predicates that a session can name.
    ///
    /// ```
    /// use fjord_gateway::{Draft, PredicateShape, Shape};
    /// let dose = PredicateShape { id: 3, name: "p", is_virtual: false, key: Shape::Int, value: Some(Shape::String) };
    /// assert_eq!(Draft::types([dose]).to_vec()?, [1, 3, 1, b'p', 0, 0, 1, 1]);
    /// # Ok::<(), fjord_gateway::Refusal>(())
    /// ```
    pub fn types<'a>(types: impl IntoIterator<Item = PredicateShape<'a>>) -> Self {
        let mut d = Draft::new(MessageKind::Types, [0; 6]);
        for p in types {
            let (start, len) = d.add(p.name.as_bytes());
            let key = d.nodes.len() as u64 / 7;
            d.rows.extend([p.id.into(), start, len, p.is_virtual.into(), p.value.is_some().into(), key]);
            d.add_shape(&p.key, (0, 0), 0);
            if let Some(value) = &p.value {
                d.add_shape(value, (0, 0), 0);
            }
        }
        d.fields[0] = d.rows.len() as u64 / 6;
        d
    }

    /// A request about a database's life.
    ///
    /// ```
    /// use fjord_gateway::{ControlOp, Draft};
    /// assert_eq!(Draft::control(ControlOp::Finish, "a", true, "").to_vec()?, [2, 1, b'a', 1, 0]);
    /// # Ok::<(), fjord_gateway::Refusal>(())
    /// ```
    pub fn control(op: ControlOp, database: &str, allow_zero_facts: bool, schema: &str) -> Self {
        let mut d = Draft::new(MessageKind::Control, [0; 6]);
        let (start, len) = d.add(database.as_bytes());
        let (schema_start, schema_len) = d.add(schema.as_bytes());
        d.fields = [op.number(), start, len, allow_zero_facts.into(), schema_start, schema_len];
        d
    }

    /// What became of such a request.
    ///
    /// ```
    /// use fjord_gateway::{ControlReply, Draft};
    /// assert_eq!(Draft::reply(ControlReply::Created { instance: "i" }).to_vec()?, [1, 1, b'i']);
    /// # Ok::<(), fjord_gateway::Refusal>(())
    /// ```
    pub fn reply(reply: ControlReply<'_>) -> Self {
        let mut d = Draft::new(MessageKind::ControlReply, [0; 6]);
        d.fields = match reply {
            ControlReply::Created { instance } => {
                let (start, len) = d.add(instance.as_bytes());
                [ControlOp::Create.number(), start, len, 0, 0, 0]
            }
            ControlReply::Finished { fingerprint, facts, bytes, already_complete } => {
                [ControlOp::Finish.number(), fingerprint, facts, bytes, already_complete.into(), 0]
            }
            ControlReply::Removed => [ControlOp::Remove.number(), 0, 0, 0, 0, 0],
        };
        d
    }

    /// What a query examined.
    ///
    /// ```
    /// use fjord_gateway::{Draft, Step};
    /// let step = Step { label: "s", examined: 9, full_scan: true };
    /// assert_eq!(Draft::profile([step]).to_vec()?, [1, 1, b's', 9, 1]);
    /// # Ok::<(), fjord_gateway::Refusal>(())
    /// ```
    pub fn profile<'a>(steps: impl IntoIterator<Item = Step<'a>>) -> Self {
        let mut d = Draft::new(MessageKind::Profile, [0; 6]);
        for step in steps {
            let (start, len) = d.add(step.label.as_bytes());
            d.rows.extend([start, len, step.examined, step.full_scan.into()]);
        }
        d.fields[0] = d.rows.len() as u64 / 4;
        d
    }

    /// A query, page by page.
    ///
    /// ```
    /// let page = fjord_gateway::Draft::page(1, &[0xFF], "q").to_vec()?;
    /// assert_eq!(page, [1, 0, 0, 0, 0, 0, 0, 0, 1, 0, 0, 0, 0xFF, b'q']);
    /// # Ok::<(), fjord_gateway::Refusal>(())
    /// ```
    pub fn page(limit: u64, cursor: &[u8], query: &str) -> Self {
        let mut d = Draft::new(MessageKind::Page, [0; 6]);
        let (start, len) = d.add(cursor);
        let (query_start, query_len) = d.add(query.as_bytes());
        d.fields = [limit, start, len, query_start, query_len, 0];
        d
    }

    /// Asks for facts by their ids, at most 4,096.
    ///
    /// ```
    /// use fjord_gateway::{Draft, FactId};
    /// assert_eq!(Draft::fetch(None, &[FactId(2 << 40 | 5).0]).to_vec()?, [0, 1, 2, 5]);
    /// # Ok::<(), fjord_gateway::Refusal>(())
    /// ```
    pub fn fetch(digest: Option<u64>, ids: &[u64]) -> Self {
        let fields = [digest.is_some().into(), digest.unwrap_or(0), ids.len() as u64, 0, 0, 0];
        let mut d = Draft::new(MessageKind::Fetch, fields);
        d.rows.extend_from_slice(ids);
        d
    }

    /// The digest of a listing.
    ///
    /// ```
    /// assert_eq!(fjord_gateway::Draft::listing_digest(1, 2).to_vec()?, [1, 2]);
    /// # Ok::<(), fjord_gateway::Refusal>(())
    /// ```
    pub fn listing_digest(predicate: u32, digest: u64) -> Self {
        Draft::new(MessageKind::ListingDigest, [predicate.into(), digest, 0, 0, 0, 0])
    }

    /// Writes the payload and zeros after it, and says how many bytes it has.
    ///
    /// ```
    /// let mut out = [9; 4];
    /// assert_eq!(fjord_gateway::Draft::ready(4, 1, 2).encode(&mut out)?, 3);
    /// assert_eq!(out, [4, 1, 2, 0]);
    /// # Ok::<(), fjord_gateway::Refusal>(())
    /// ```
    pub fn encode(&self, out: &mut [u8]) -> Result<usize, Refusal> {
        let mut answer = [0; 16];
        // SAFETY: each pointer comes with its slice's length, and the borrows say that none overlaps another.
        unsafe {
            ffi::fjord_encode(
                self.number,
                &self.fields,
                self.text.as_ptr(),
                self.text.len(),
                self.rows.as_ptr(),
                self.rows.len(),
                self.nodes.as_ptr(),
                self.nodes.len(),
                out.as_mut_ptr(),
                out.len(),
                &mut answer,
            )
        };
        Refusal::of(&answer)?;
        Ok(answer[3] as usize)
    }

    /// The payload.
    ///
    /// ```
    /// assert_eq!(fjord_gateway::Draft::ids(&[]).to_vec()?, [0]);
    /// # Ok::<(), fjord_gateway::Refusal>(())
    /// ```
    pub fn to_vec(&self) -> Result<Vec<u8>, Refusal> {
        grown(|out| self.encode(out))
    }
}

/// What a writer writes, into a buffer of the length that its refusal by 16(5) asks for.
fn grown(write: impl Fn(&mut [u8]) -> Result<usize, Refusal>) -> Result<Vec<u8>, Refusal> {
    match write(&mut []) {
        Ok(_) => Ok(Vec::new()),
        Err(Refusal { number: 16, b: needed, .. }) => {
            let mut out = vec![0; needed as usize];
            write(&mut out)?;
            Ok(out)
        }
        Err(refusal) => Err(refusal),
    }
}

impl From<&Message<'_>> for Draft {
    /// A decoded message, to be sent on. An opaque payload needs no encoding; its draft is refused by 19(4).
    fn from(message: &Message<'_>) -> Self {
        match message {
            Message::Startup { version, database, mode, schema_fingerprint, claims } => {
                Draft::startup(*version, database, *mode, *schema_fingerprint, *claims)
            }
            Message::Ready { version, schema_fingerprint, predicates } => {
                Draft::ready(*version, *schema_fingerprint, *predicates)
            }
            Message::Error { code, text } => Draft::error(*code, text),
            Message::Complete { first, second } => Draft::complete(*first, *second),
            Message::Ids { ids } => Draft::ids(ids),
            Message::Types { types } => Draft::types(types.map(|p| PredicateShape {
                id: p.id,
                name: p.name,
                is_virtual: p.is_virtual,
                key: p.key.into(),
                value: p.value.map(Shape::from),
            })),
            Message::Control { op, database, allow_zero_facts, schema } => {
                Draft::control(*op, database, *allow_zero_facts, schema)
            }
            Message::Reply(reply) => Draft::reply(*reply),
            Message::Profile { steps } => Draft::profile(*steps),
            Message::Page { limit, cursor, query } => Draft::page(*limit, cursor, query),
            Message::Fetch { digest, ids } => Draft::fetch(*digest, ids),
            Message::ListingDigest { predicate, digest } => Draft::listing_digest(*predicate, *digest),
            Message::Opaque { .. } => {
                Draft { number: 0, fields: [0; 6], text: Vec::new(), rows: Vec::new(), nodes: Vec::new() }
            }
        }
    }
}
