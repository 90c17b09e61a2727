//! Refusals as document 01's numbers.
use fjord_wire::WireError;

/// A refusal's number and its two details.
pub type Refusal = [u64; 3];

/// What the original's error is by document 01's list; none of the errors that are missing here belongs to what is compared.
pub fn refusal_of(e: &WireError) -> Refusal {
    match *e {
        WireError::UnexpectedEof => [1, 0, 0],
        WireError::VarintOverflow => [2, 0, 0],
        WireError::VarintNotMinimal => [3, 0, 0],
        WireError::BadString => [4, 0, 0],
        WireError::LengthOutOfRange {
            declared,
            available,
        } => [5, declared, available as u64],
        WireError::UnknownRefForm(tag) => [6, tag, 0],
        WireError::UnknownDiscriminant(n) => [7, n, 0],
        WireError::BadFactId(n) => [8, n, 0],
        WireError::TypeMismatch(what) => [9, which(what), 0],
        WireError::TrailingBytes(n) => [10, n as u64, 0],
        WireError::UnknownPredicate(n) => [11, u64::from(n), 0],
        WireError::BlockTooLarge { declared, max, .. } => [12, declared, max],
        WireError::BadDigestFlag(flag) => [13, u64::from(flag), 0],
        WireError::BadListingPredicate(n) => [14, n, 0],
        _ => panic!("an error that is not on document 01's list: {e:?}"),
    }
}

/// The original says in words which field is wrong; each has a word that the others lack.
fn which(what: &str) -> u64 {
    const WORDS: [&str; 7] = ["mode", "version", "code", "op", "flags", "complete", "scan"];
    let place = WORDS
        .iter()
        .position(|word| what.split(' ').any(|w| w == *word));
    place.map_or_else(
        || panic!("a field that is not on document 01's list: {what}"),
        |i| i as u64 + 1,
    )
}

/// 16: which buffer, and the length that it needs.
pub fn too_small(which: usize, needed: usize) -> Refusal {
    [16, which as u64, needed as u64]
}
