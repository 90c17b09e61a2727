//! Type descriptors, as a view of their nodes.
use crate::memory::Filled;

/// How many numbers a node has: tag, name's start and length, discriminant, fact's predicate, child count, end.
const WIDTH: usize = 7;

/// A type descriptor in lent memory.
///
/// ```
/// use fjord_gateway::{decode_desc, DescKind, Memory};
/// // a record with one field "dose" that is an int
/// let bytes = [3, 1, 4, b'd', b'o', b's', b'e', 0];
/// let mut memory = Memory::for_payload(bytes.len());
/// let (desc, used) = decode_desc(&bytes, memory.lend())?;
/// assert_eq!(used, 8);
/// let DescKind::Record(fields) = desc.kind() else { panic!() };
/// let field = fields.into_iter().next().unwrap();
/// assert_eq!((field.name, field.desc.kind()), ("dose", DescKind::Int));
/// # Ok::<(), fjord_gateway::Refusal>(())
/// ```
#[derive(Clone, Copy, Debug)]
pub struct Desc<'m> {
    memory: Filled<'m>,
    node: usize,
}

/// What a descriptor is. Its children are collected, since there are few.
///
/// ```
/// use fjord_gateway::{decode_desc, DescKind, Memory};
/// let mut memory = Memory::for_payload(2);
/// assert_eq!(decode_desc(&[3, 0], memory.lend())?.0.kind(), DescKind::Record(vec![]));
/// # Ok::<(), fjord_gateway::Refusal>(())
/// ```
#[derive(Clone, Debug, PartialEq)]
pub enum DescKind<'m> {
    /// A number.
    Int,
    /// A text.
    String,
    /// A fact of a predicate.
    Fact(u32),
    /// Named fields.
    Record(Vec<Field<'m>>),
    /// Named alternatives with their discriminants.
    Union(Vec<Alternative<'m>>),
    /// Bytes.
    Bytes,
}

/// A field of a record.
///
/// ```
/// use fjord_gateway::{decode_desc, DescKind, Memory};
/// let mut memory = Memory::for_payload(7);
/// let DescKind::Record(fields) = decode_desc(b"\x03\x01\x03mg/\x00", memory.lend())?.0.kind() else { panic!() };
/// assert_eq!((fields[0].name, fields[0].desc.kind()), ("mg/", DescKind::Int));
/// # Ok::<(), fjord_gateway::Refusal>(())
/// ```
#[derive(Clone, Debug, PartialEq)]
pub struct Field<'m> {
    /// Its name.
    pub name: &'m str,
    /// Its type.
    pub desc: Desc<'m>,
}

/// An alternative of a union.
///
/// ```
/// use fjord_gateway::{decode_desc, DescKind, Memory};
/// let mut memory = Memory::for_payload(9);
/// let DescKind::Union(ways) = decode_desc(b"\x04\x01\x04oral\x02\x05", memory.lend())?.0.kind() else { panic!() };
/// assert_eq!((ways[0].name, ways[0].discriminant, ways[0].desc.kind()), ("oral", 2, DescKind::Bytes));
/// # Ok::<(), fjord_gateway::Refusal>(())
/// ```
#[derive(Clone, Debug, PartialEq)]
pub struct Alternative<'m> {
    /// Its name.
    pub name: &'m str,
    /// Its discriminant.
    pub discriminant: u32,
    /// Its type.
    pub desc: Desc<'m>,
}

impl<'m> Desc<'m> {
    pub(crate) fn at(memory: Filled<'m>, node: u64) -> Self {
        Desc { memory, node: node as usize }
    }

    fn column(&self, k: usize) -> u64 {
        self.memory.nodes[self.node * WIDTH + k]
    }

    fn name(&self) -> &'m str {
        self.memory.str(self.column(1), self.column(2))
    }

    /// The node behind this descriptor's last.
    pub(crate) fn end(&self) -> u64 {
        self.column(6)
    }

    fn children(&self) -> impl Iterator<Item = Desc<'m>> + use<'_, 'm> {
        let mut node = self.node as u64 + 1;
        (0..self.column(5)).map(move |_| {
            let child = Desc::at(self.memory, node);
            node = child.end();
            child
        })
    }

    /// What it is.
    ///
    /// ```
    /// # use fjord_gateway::{decode_desc, DescKind, Memory};
    /// let mut memory = Memory::for_payload(2);
    /// assert_eq!(decode_desc(&[2, 7], memory.lend())?.0.kind(), DescKind::Fact(7));
    /// # Ok::<(), fjord_gateway::Refusal>(())
    /// ```
    pub fn kind(&self) -> DescKind<'m> {
        match self.column(0) {
            0 => DescKind::Int,
            1 => DescKind::String,
            2 => DescKind::Fact(self.column(4) as u32),
            3 => DescKind::Record(self.children().map(|desc| Field { name: desc.name(), desc }).collect()),
            4 => DescKind::Union(
                self.children()
                    .map(|desc| Alternative { name: desc.name(), discriminant: desc.column(3) as u32, desc })
                    .collect(),
            ),
            _ => DescKind::Bytes,
        }
    }
}

impl PartialEq for Desc<'_> {
    fn eq(&self, other: &Self) -> bool {
        self.kind() == other.kind()
    }
}
