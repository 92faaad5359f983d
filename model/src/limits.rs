//! The limits of the machine and the numbers that follow from how many boards there are.

/// The most boards that a bench has.
pub const BOARDS: usize = 7;
/// The last round of a vote.
pub const ROUNDS: usize = 32;
/// The highest identifier that a signer signs under.
pub const IDENTIFIERS: usize = 64;
/// The most events that a file holds.
pub const EVENTS: usize = 4096;

/// How many boards there are, and the two thresholds that this sets.
#[derive(Clone, Copy, PartialEq, Eq, Debug)]
pub struct Sizes {
    pub n: u8,
    /// Enough ballots to end a round, or to decide.
    pub q: u8,
    /// Enough ballots to carry a value on.
    pub e: u8,
}

impl Sizes {
    /// The sizes for `n` boards, where `n` is at least 1.
    pub const fn of(n: u8) -> Sizes {
        let f = (n - 1) / 2;
        Sizes {
            n,
            q: n - f,
            e: n - 2 * f,
        }
    }

    /// The board whose opening counts in `round`.
    pub const fn coordinator(self, round: u8) -> u8 {
        (round - 1) % self.n + 1
    }
}

/// The identifier of the opening of `round`.
pub const fn opening_of(round: u8) -> u8 {
    2 * round - 1
}

/// The identifier of a ballot of `round`.
pub const fn ballot_of(round: u8) -> u8 {
    2 * round
}

/// The round that an identifier belongs to.
pub const fn round_of(identifier: u8) -> u8 {
    identifier.div_ceil(2)
}

#[cfg(test)]
mod tests {
    use super::*;

    /// Letter a of the examples.
    #[test]
    fn sizes_of_the_examples() {
        let got: Vec<_> = [1, 2, 3, 4, 7]
            .iter()
            .map(|&n| (n - Sizes::of(n).q, Sizes::of(n).q, Sizes::of(n).e))
            .collect();
        assert_eq!(got, [(0, 1, 1), (0, 2, 2), (1, 2, 1), (1, 3, 2), (3, 4, 1)]);
    }

    /// Letter b of the examples.
    #[test]
    fn coordinators_of_three_boards() {
        let got: Vec<_> = (1..=4).map(|r| Sizes::of(3).coordinator(r)).collect();
        assert_eq!(got, [1, 2, 3, 1]);
    }

    /// Letter c of the examples.
    #[test]
    fn identifiers_of_the_last_round() {
        let last = ROUNDS as u8;
        assert_eq!((opening_of(last), ballot_of(last)), (63, 64));
        assert_eq!(ballot_of(last) as usize, IDENTIFIERS);
    }

    #[test]
    fn a_round_has_two_identifiers() {
        for round in 1..=ROUNDS as u8 {
            assert_eq!(round_of(opening_of(round)), round);
            assert_eq!(round_of(ballot_of(round)), round);
        }
    }
}
