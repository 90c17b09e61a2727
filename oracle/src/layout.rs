//! A message in lent memory, by document 01's "The lent memory".
use crate::rng::Rng;
use fjord_wire::desc::Desc;

/// A text's start and length.
pub type Span = [u64; 2];

/// A root has no name.
pub const NO_NAME: Span = [0, 0];

/// How many numbers a node has, and which of them is its end.
const NODE: usize = 7;
const END: usize = 6;

#[derive(Debug, Default)]
pub struct Layout {
    pub text: Vec<u8>,
    pub rows: Vec<u64>,
    pub nodes: Vec<u64>,
    scatter: Option<Rng>,
}

impl Layout {
    /// As a decoder leaves it: the texts joined in reading order, and nothing between or after them.
    pub fn joined() -> Layout {
        Layout::default()
    }

    /// As an encoder must read it too: texts at any places, overlapping ones among them, and anything in what is not read.
    pub fn scattered(rng: Rng) -> Layout {
        Layout {
            scatter: Some(rng),
            ..Layout::default()
        }
    }

    pub fn put(&mut self, bytes: &[u8]) -> Span {
        let start = match &mut self.scatter {
            None => self.text.len(),
            Some(rng) => match found(&self.text, bytes, rng) {
                Some(start) => return [start as u64, bytes.len() as u64],
                None => {
                    self.text.extend((0..rng.below(3)).map(|_| rng.byte()));
                    self.text.len()
                }
            },
        };
        self.text.extend_from_slice(bytes);
        [start as u64, bytes.len() as u64]
    }

    pub fn row(&mut self, numbers: &[u64]) {
        self.rows.extend_from_slice(numbers);
    }

    /// The fields of a message; those that it lacks are 0 in an answer, and not read from a request.
    pub fn fields(&mut self, own: &[u64]) -> [u64; 6] {
        let mut fields = [0; 6];
        if let Some(rng) = &mut self.scatter {
            fields = fields.map(|_| rng.bits());
        }
        fields[..own.len()].copy_from_slice(own);
        fields
    }

    /// A number that is not read where the layout is scattered, and 0 in an answer.
    pub fn unread(&mut self) -> u64 {
        self.scatter.as_mut().map_or(0, Rng::bits)
    }

    /// How many nodes there are so far: the index of the next one.
    pub fn node_count(&self) -> u64 {
        (self.nodes.len() / NODE) as u64
    }

    /// A descriptor's node, and those of its children behind it.
    pub fn desc(&mut self, desc: &Desc, name: Span, disc: u64) {
        let at = self.nodes.len();
        let (tag, predicate, children) = match desc {
            Desc::Int => (0, 0, 0),
            Desc::Str => (1, 0, 0),
            Desc::Fact(id) => (2, u64::from(id.0), 0),
            Desc::Record(fields) => (3, 0, fields.len()),
            Desc::Union(alternatives) => (4, 0, alternatives.len()),
            Desc::Bytes => (5, 0, 0),
        };
        self.nodes
            .extend([tag, name[0], name[1], disc, predicate, children as u64, 0]);
        if let Desc::Record(fields) = desc {
            for (name, field) in fields {
                let name = self.put(name.as_bytes());
                self.desc(field, name, 0);
            }
        }
        if let Desc::Union(alternatives) = desc {
            for (name, disc, alternative) in alternatives {
                let name = self.put(name.as_bytes());
                self.desc(alternative, name, u64::from(*disc));
            }
        }
        self.nodes[at + END] = self.node_count();
    }

    /// Numbers behind the message's own, which an encoder does not read.
    pub fn pad(&mut self) {
        if let Some(rng) = &mut self.scatter {
            self.rows.extend((0..rng.below(9)).map(|_| rng.bits()));
            self.nodes.extend((0..rng.below(9)).map(|_| rng.bits()));
        }
    }

    /// The lengths of text, rows and nodes.
    pub fn needs(&self) -> [usize; 3] {
        [self.text.len(), self.rows.len(), self.nodes.len()]
    }
}

/// Half of the short texts that are there already are not put again.
fn found(text: &[u8], bytes: &[u8], rng: &mut Rng) -> Option<usize> {
    if bytes.is_empty() {
        return Some(rng.below(text.len() + 1));
    }
    if bytes.len() > 64 || text.len() > 4096 || rng.once_in(2) {
        return None;
    }
    text.windows(bytes.len()).position(|w| w == bytes)
}
