//! Lent buffers whose surroundings are watched.
//!
//! A proof rules out a write past what was lent, but not past a wrong
//! declaration of it, so the check looks.

/// Bytes before and after what is lent. More than a page, so that a program
/// that ran on would be seen; odd, so that what is lent is not aligned.
const MARGIN: usize = 259;

/// A buffer between two margins that nobody may write.
#[derive(Debug)]
pub struct Guarded {
    bytes: Vec<u8>,
    length: usize,
    pattern: u8,
}

impl Guarded {
    /// A buffer of `length` bytes; margins and all hold `pattern`.
    #[must_use]
    pub fn new(length: usize, pattern: u8) -> Guarded {
        let bytes = vec![pattern; MARGIN + length + MARGIN];
        Guarded {
            bytes,
            length,
            pattern,
        }
    }

    /// Another length, and everything to `pattern`.
    pub fn prepare(&mut self, length: usize, pattern: u8) {
        let whole = MARGIN + length + MARGIN;
        if self.bytes.len() < whole {
            self.bytes.resize(whole, pattern);
        }
        self.bytes[..whole].fill(pattern);
        (self.length, self.pattern) = (length, pattern);
    }

    /// What is lent.
    #[must_use]
    pub fn lent(&self) -> &[u8] {
        &self.bytes[MARGIN..][..self.length]
    }

    /// What is lent, to be written.
    pub fn lent_mut(&mut self) -> &mut [u8] {
        &mut self.bytes[MARGIN..][..self.length]
    }

    /// What is lent but of another length, up to a margin more.
    pub fn lent_as(&mut self, length: usize) -> &mut [u8] {
        &mut self.bytes[MARGIN..][..length]
    }

    /// Whether both margins are as they were.
    #[must_use]
    pub fn intact(&self) -> bool {
        let after = &self.bytes[MARGIN + self.length..][..MARGIN];
        let mut margins = self.bytes[..MARGIN].iter().chain(after);
        margins.all(|&byte| byte == self.pattern)
    }
}

#[cfg(test)]
mod tests {
    use super::*;

    #[test]
    fn a_write_to_either_side_is_seen() {
        let mut buffer = Guarded::new(10, 7);
        buffer.lent_mut().fill(9);
        assert!(buffer.intact());
        buffer.bytes[MARGIN - 1] = 9;
        assert!(!buffer.intact());
        buffer.prepare(20, 3);
        assert!(buffer.intact());
        buffer.lent_as(21)[20] = 9;
        assert!(!buffer.intact());
        buffer.prepare(5, 3);
        assert!(buffer.intact() && buffer.lent() == [3; 5]);
    }
}
