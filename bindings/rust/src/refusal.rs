//! A refusal, and the number that carries it through the C interface.

use std::error::Error;
use std::fmt;

/// The row of docs/SPECIFICATION.md, "Refusals", with view and index where these
/// have a sense; otherwise they are 0.
#[derive(Clone, Copy, Debug, PartialEq, Eq)]
pub struct Refusal {
    pub number: u8,
    pub view: u8,
    pub index: u64,
}

impl Refusal {
    /// What a call answered: none for 0, since a result was written then. The
    /// code is number + 256 · view + 65536 · index.
    pub const fn from_code(code: u64) -> Option<Self> {
        if code == 0 {
            return None;
        }
        Some(Self {
            number: code as u8,
            view: (code >> 8) as u8,
            index: code >> 16,
        })
    }
}

impl fmt::Display for Refusal {
    fn fmt(&self, f: &mut fmt::Formatter<'_>) -> fmt::Result {
        write!(f, "refused {} {} {}", self.number, self.view, self.index)
    }
}

impl Error for Refusal {}

#[cfg(test)]
mod tests {
    use super::Refusal;

    #[test]
    fn zero_is_no_refusal() {
        assert_eq!(Refusal::from_code(0), None);
    }

    #[test]
    fn a_code_has_number_view_and_index() {
        let refusal = Refusal::from_code(9 + 256 * 2 + 65_536 * 65_534).expect("a refusal");
        assert_eq!(
            (refusal.number, refusal.view, refusal.index),
            (9, 2, 65_534)
        );
        assert_eq!(refusal.to_string(), "refused 9 2 65534");
    }

    #[test]
    fn no_bit_of_a_code_is_lost() {
        let refusal = Refusal::from_code(u64::MAX).expect("a refusal");
        assert_eq!((refusal.number, refusal.view), (255, 255));
        assert_eq!(refusal.index, u64::MAX >> 16);
    }
}
