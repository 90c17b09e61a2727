//! Why a call was refused.
use std::error::Error;
use std::fmt;

/// A refusal: its number and two details, 0 where there is none.
///
/// ```
/// use fjord_gateway::Refusal;
/// let refusal = Refusal { number: 5, a: 5, b: 3 };
/// assert_eq!(refusal.to_string(), "5 LengthOutOfRange(5, 3)");
/// assert_eq!(Refusal { number: 1, a: 0, b: 0 }.to_string(), "1 UnexpectedEof");
/// ```
#[derive(Clone, Copy, Debug, PartialEq, Eq, Hash)]
pub struct Refusal {
    /// Which refusal, 1 to 19.
    pub number: u64,
    /// The first detail.
    pub a: u64,
    /// The second detail.
    pub b: u64,
}

/// The name of each refusal and how many details it has.
const NAMES: [(&str, usize); 20] = [
    ("Accepted", 0),
    ("UnexpectedEof", 0),
    ("VarintOverflow", 0),
    ("VarintNotMinimal", 0),
    ("BadString", 0),
    ("LengthOutOfRange", 2),
    ("UnknownRefForm", 1),
    ("UnknownDiscriminant", 1),
    ("BadFactId", 1),
    ("TypeMismatch", 1),
    ("TrailingBytes", 1),
    ("UnknownPredicate", 1),
    ("BlockTooLarge", 2),
    ("BadDigestFlag", 1),
    ("BadListingPredicate", 1),
    ("TooDeep", 1),
    ("TooSmall", 2),
    ("BadReceiver", 0),
    ("BadKindTable", 1),
    ("BadMessage", 1),
];

impl Refusal {
    /// The refusal's name.
    ///
    /// ```
    /// use fjord_gateway::Refusal;
    /// assert_eq!(Refusal { number: 16, a: 1, b: 9 }.name(), "TooSmall");
    /// ```
    pub fn name(&self) -> &'static str {
        self.known().map_or("Unknown", |(name, _)| name)
    }

    fn known(&self) -> Option<(&'static str, usize)> {
        usize::try_from(self.number).ok().and_then(|n| NAMES.get(n).copied())
    }

    /// The answer's refusal, if it has one.
    pub(crate) fn of(answer: &[u64; 16]) -> Result<(), Refusal> {
        match answer[0] {
            0 => Ok(()),
            number => Err(Refusal { number, a: answer[1], b: answer[2] }),
        }
    }
}

impl fmt::Display for Refusal {
    fn fmt(&self, f: &mut fmt::Formatter<'_>) -> fmt::Result {
        let (name, details) = self.known().unwrap_or(("Unknown", 2));
        match details {
            0 => write!(f, "{} {name}", self.number),
            1 => write!(f, "{} {name}({})", self.number, self.a),
            _ => write!(f, "{} {name}({}, {})", self.number, self.a, self.b),
        }
    }
}

impl Error for Refusal {}
