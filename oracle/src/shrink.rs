//! Makes a differing input smaller while it still differs.

/// How many bytes are tried in all.
const BYTES: usize = 1 << 28;

/// The smallest input found that is still good for `differs`.
pub fn shrink(bytes: Vec<u8>, differs: impl FnMut(&[u8]) -> bool) -> Vec<u8> {
    let mut s = Shrinker {
        best: bytes,
        differs,
        bytes: BYTES,
    };
    loop {
        let before = s.best.clone();
        s.drop_parts();
        s.lower_bytes();
        if s.best == before || s.bytes == 0 {
            return s.best;
        }
    }
}

struct Shrinker<F> {
    best: Vec<u8>,
    differs: F,
    bytes: usize,
}

impl<F: FnMut(&[u8]) -> bool> Shrinker<F> {
    fn try_out(&mut self, smaller: Vec<u8>) -> bool {
        self.bytes = self.bytes.saturating_sub(smaller.len() + 1);
        let good = (self.differs)(&smaller);
        if good {
            self.best = smaller;
        }
        good
    }

    /// Leaves out parts, the longest first.
    fn drop_parts(&mut self) {
        let mut size = self.best.len().div_ceil(2);
        while size > 0 {
            let mut at = 0;
            while self.bytes > 0 && at + size <= self.best.len() {
                let rest = [&self.best[..at], &self.best[at + size..]].concat();
                if !self.try_out(rest) {
                    at += size;
                }
            }
            size /= 2;
        }
    }

    /// Makes bytes smaller numbers.
    fn lower_bytes(&mut self) {
        for i in 0..self.best.len() {
            let byte = self.best[i];
            if self.bytes == 0 {
                return;
            }
            for lower in [0, 1, byte / 2, byte.saturating_sub(1)] {
                let mut copy = self.best.clone();
                copy[i] = lower;
                if lower < byte && self.try_out(copy) {
                    break;
                }
            }
        }
    }
}

#[cfg(test)]
mod tests {
    use super::*;

    #[test]
    fn what_is_not_needed_goes() {
        let input: Vec<u8> = (0..=255).collect();
        let small = shrink(input, |b| b.iter().any(|x| *x > 6) && b.len() > 1);
        assert_eq!(small, [0, 7]);
    }
}
