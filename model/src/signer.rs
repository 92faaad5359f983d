//! The signer that each board has: it signs under rising identifiers only.

use crate::limits::IDENTIFIERS;

#[derive(Clone, PartialEq, Eq, Debug)]
pub struct Signer {
    last: u8,
    signed: [Option<u16>; IDENTIFIERS],
}

impl Signer {
    pub const FRESH: Signer = Signer {
        last: 0,
        signed: [None; IDENTIFIERS],
    };

    /// The highest identifier signed so far, or 0.
    pub fn last(&self) -> u8 {
        self.last
    }

    pub fn signed(&self, identifier: u8) -> Option<u16> {
        self.signed[identifier as usize - 1]
    }

    /// Signs if the identifier is above all before. Says whether it did.
    pub fn sign(&mut self, identifier: u8, value: u16) -> bool {
        if identifier <= self.last {
            return false;
        }
        self.last = identifier;
        self.signed[identifier as usize - 1] = Some(value);
        true
    }
}

#[cfg(test)]
mod tests {
    use super::*;

    /// Letter d of the examples.
    #[test]
    fn a_refused_call_does_not_count() {
        let mut signer = Signer::FRESH;
        let got: Vec<_> = [5, 3, 5, 6].iter().map(|&i| signer.sign(i, 9)).collect();
        assert_eq!(got, [true, false, false, true]);
        assert_eq!(signer.last(), 6);
    }

    #[test]
    fn a_refused_call_changes_nothing() {
        let mut signer = Signer::FRESH;
        signer.sign(5, 0);
        let before = signer.clone();
        assert!(!signer.sign(5, 7));
        assert!(!signer.sign(4, 7));
        assert_eq!(signer, before);
        assert_eq!((signer.signed(5), signer.signed(4)), (Some(0), None));
    }
}
