//! Why code is not accepted, as the library tells it beside 23 and 26, and the words for it.

use std::{error::Error, fmt};

use crate::Refusal;

/// Why no depths can be given, or in strict mode too few values are there. Each depth is one that the instructions lead
/// to from a start.
#[derive(Debug, Clone, Copy, PartialEq, Eq, Hash)]
#[non_exhaustive]
pub enum Reason {
    /// Paths lead to one place with two depths.
    TwoDepths {
        /// The offset of an instruction, or the code's end.
        place: usize,
        /// The depths, which differ.
        depths: [u16; 2],
    },
    /// The depth behind an instruction would be below 0, or above 65,535.
    DepthOutOfRange {
        /// The instruction's offset.
        at: usize,
        /// The depth before it.
        depth: u16,
    },
    /// The depth that a jump arrives with would be below 0, or above 65,535.
    TakenOutOfRange {
        /// The jump's offset.
        at: usize,
        /// The depth before it.
        depth: u16,
    },
    /// A jump leads to where no instruction starts, and not to the end.
    NoPlace {
        /// The jump's offset.
        at: usize,
        /// The depth before it.
        depth: u16,
    },
    /// In strict mode: an instruction needs more values than are on the stack. It is the first in the code that does.
    TooFewValues {
        /// The instruction's offset.
        at: usize,
        /// The depth before it.
        depth: u16,
        /// How many values it needs.
        need: u16,
    },
}

impl Reason {
    /// How many numbers tell a reason.
    pub(crate) const CELLS: usize = 4;

    /// The reason that the numbers tell; none of a kind that this crate does not know.
    pub(crate) fn of([kind, at, depth, other]: [u64; Self::CELLS]) -> Option<Self> {
        // The library answers numbers that fit: an offset of the code, and depths.
        let (at, depth, other) = (at as usize, depth as u16, other as u16);
        Some(match kind {
            1 => Self::TwoDepths {
                place: at,
                depths: [depth, other],
            },
            2 => Self::DepthOutOfRange { at, depth },
            3 => Self::TakenOutOfRange { at, depth },
            4 => Self::NoPlace { at, depth },
            5 => Self::TooFewValues { at, depth, need: other },
            _ => return None,
        })
    }

    /// The offset that it is about: of an instruction, or where two depths meet.
    #[must_use]
    pub fn offset(self) -> usize {
        match self {
            Self::TwoDepths { place, .. } => place,
            Self::DepthOutOfRange { at, .. }
            | Self::TakenOutOfRange { at, .. }
            | Self::NoPlace { at, .. }
            | Self::TooFewValues { at, .. } => at,
        }
    }
}

impl fmt::Display for Reason {
    fn fmt(&self, f: &mut fmt::Formatter<'_>) -> fmt::Result {
        match *self {
            Self::TwoDepths {
                place,
                depths: [one, other],
            } => write!(f, "paths lead to offset {place} with the depths {one} and {other}"),
            Self::DepthOutOfRange { at, depth } => write!(
                f,
                "the instruction at offset {at} takes the depth {depth} below 0, or above 65,535"
            ),
            // No taken jump takes more than one value, and none adds any.
            Self::TakenOutOfRange { at, .. } => {
                write!(
                    f,
                    "the jump at offset {at} needs a value on the stack; it has none there"
                )
            }
            Self::NoPlace { at, .. } => {
                write!(f, "the jump at offset {at} leads to where no instruction starts")
            }
            Self::TooFewValues { need, depth, .. } => write!(f, "it needs {need}, and {depth} is there"),
        }
    }
}

/// Why code was not accepted: the refusal, and for 23 and 26 the reason.
#[derive(Debug, Clone, Copy, PartialEq, Eq, Hash)]
pub struct CheckError {
    refusal: Refusal,
    reason: Option<Reason>,
}

impl CheckError {
    pub(crate) fn new(refusal: Refusal, told: [u64; Reason::CELLS]) -> Self {
        let reason = match refusal {
            Refusal::NoDepths | Refusal::TooFewValues(_) => Reason::of(told),
            _ => None,
        };
        Self { refusal, reason }
    }

    /// What is refused.
    #[must_use]
    pub fn refusal(self) -> Refusal {
        self.refusal
    }

    /// Why no depths can be given, or what is too little; none but for 23 and 26.
    #[must_use]
    pub fn reason(self) -> Option<Reason> {
        self.reason
    }
}

impl fmt::Display for CheckError {
    fn fmt(&self, f: &mut fmt::Formatter<'_>) -> fmt::Result {
        write!(f, "{}", self.refusal)?;
        match self.reason {
            Some(reason) => write!(f, ": {reason}"),
            None => Ok(()),
        }
    }
}

impl Error for CheckError {}

#[cfg(test)]
mod tests {
    use super::*;

    #[test]
    fn each_kind_has_its_words() {
        let told = |cells| CheckError::new(Refusal::NoDepths, cells).to_string();
        for (cells, words) in [
            ([1, 14, 2, 1], ": paths lead to offset 14 with the depths 2 and 1"),
            (
                [2, 3, 0, 0],
                ": the instruction at offset 3 takes the depth 0 below 0, or above 65,535",
            ),
            (
                [3, 4, 0, 0],
                ": the jump at offset 4 needs a value on the stack; it has none there",
            ),
            (
                [4, 5, 7, 0],
                ": the jump at offset 5 leads to where no instruction starts",
            ),
            ([6, 0, 0, 0], ""),
        ] {
            assert_eq!(told(cells), format!("refused 23: no depths can be given{words}"));
        }
        assert_eq!(
            CheckError::new(Refusal::TooFewValues(12), [5, 12, 1, 2]).to_string(),
            "refused 26 at offset 12: an instruction needs more values than the stack holds: it needs 2, and 1 is there"
        );
    }

    #[test]
    fn other_refusals_have_no_reason() {
        let error = CheckError::new(Refusal::BadStarts, [1, 2, 3, 4]);
        assert_eq!((error.refusal(), error.reason()), (Refusal::BadStarts, None));
        assert_eq!(error.to_string(), Refusal::BadStarts.to_string());
    }
}
