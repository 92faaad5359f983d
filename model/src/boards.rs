//! A set of boards, one bit for each.

/// Board `k` is in the set when bit `k - 1` is set.
#[derive(Clone, Copy, PartialEq, Eq, Default, Debug)]
pub struct Boards(pub u8);

impl Boards {
    pub const NONE: Boards = Boards(0);

    /// The boards 1 to `n`.
    pub const fn up_to(n: u8) -> Boards {
        Boards(((1u16 << n) - 1) as u8)
    }

    pub const fn has(self, board: u8) -> bool {
        self.0 >> (board - 1) & 1 == 1
    }

    pub const fn with(self, board: u8) -> Boards {
        Boards(self.0 | 1 << (board - 1))
    }

    pub const fn without(self, board: u8) -> Boards {
        Boards(self.0 & !(1 << (board - 1)))
    }

    pub const fn and(self, other: Boards) -> Boards {
        Boards(self.0 & other.0)
    }

    pub const fn minus(self, other: Boards) -> Boards {
        Boards(self.0 & !other.0)
    }

    pub const fn count(self) -> u8 {
        self.0.count_ones() as u8
    }

    pub const fn is_empty(self) -> bool {
        self.0 == 0
    }

    /// The boards of the set in rising order.
    pub fn iter(self) -> Members {
        Members(self.0)
    }
}

/// Walks over a set from its lowest board to its highest.
pub struct Members(u8);

impl Iterator for Members {
    type Item = u8;

    fn next(&mut self) -> Option<u8> {
        if self.0 == 0 {
            return None;
        }
        let board = self.0.trailing_zeros() as u8 + 1;
        self.0 &= self.0 - 1;
        Some(board)
    }
}

#[cfg(test)]
mod tests {
    use super::*;

    #[test]
    fn members_come_in_rising_order() {
        let set = Boards::NONE.with(7).with(2).with(5).without(5);
        assert_eq!(set.iter().collect::<Vec<_>>(), [2, 7]);
        assert_eq!((set.count(), set.has(2), set.has(5)), (2, true, false));
        assert_eq!(Boards::up_to(7), Boards(127));
        assert_eq!(set.minus(Boards::NONE.with(7)), Boards(2));
        assert_eq!(set.and(Boards::up_to(6)), Boards(2));
    }
}
