//! The depth checker: whether all paths through code meet with the same depth of the stack.

use crate::{CheckError, Reason, Refusal, sys};

/// What stands where an offset has no depth.
pub const NO_DEPTH: u32 = 65_536;

/// The most bytes of code.
const CODE_MOST: usize = 1_048_576;

/// What a check asks of an instruction's depth.
#[derive(Debug, Clone, Copy, PartialEq, Eq, Hash, Default)]
#[repr(u8)]
pub enum Mode {
    /// That what the instruction adds and takes away in all leaves the depth at or above 0. So the builder checks.
    #[default]
    Net = 0,
    /// That besides the stack holds the values that the instruction needs: two for an addition or a comparison, say, where
    /// the other mode lets it pass with one. What this mode accepts the other one does, with the same depths.
    Strict = 1,
}

/// What a check says of the depths that it gave.
#[derive(Debug, Clone, Copy, PartialEq, Eq, Hash)]
pub struct Assignment {
    /// How many instructions have a depth.
    pub count: usize,
    /// The greatest depth, before an instruction or at the code's end; 0 where there is none. No path from a start
    /// comes there with more, and where there is a start some path comes with as much.
    pub greatest: u16,
}

impl Assignment {
    /// What an answer tells, and the number beside it.
    fn told(answer: sys::Answer, greatest: u32) -> Result<Self, Refusal> {
        answer.read().map(|count| Self {
            count: count as usize,
            // The library tells a depth where it accepts.
            greatest: greatest as u16,
        })
    }
}

/// Code that was accepted: the depth of the stack before each instruction that a start leads to.
#[derive(Debug, Clone, PartialEq, Eq)]
pub struct Checked {
    assignment: Assignment,
    depths: Vec<u32>,
}

impl Checked {
    /// How many instructions have a depth.
    #[must_use]
    pub fn count(&self) -> usize {
        self.assignment.count
    }

    /// How much stack the code needs at most, before an instruction or at its end: an interpreter reserves so much, and
    /// what an instruction uses while it runs. 0 where no start leads anywhere.
    ///
    /// ```
    /// use tokenfinch::{Refusal, check};
    ///
    /// // Two values are loaded, and come off again.
    /// assert_eq!(check(&[0x05, 0x05, 0x00, 0x00], &[0, 0])?.greatest(), 2);
    /// assert_eq!(check(&[0x05, 0x05, 0x00, 0x00], &[])?.greatest(), 0);
    /// # Ok::<(), Refusal>(())
    /// ```
    #[must_use]
    pub fn greatest(&self) -> u16 {
        self.assignment.greatest
    }

    /// The depths by offset, [`NO_DEPTH`] where there is none; the last is the end's.
    #[must_use]
    pub fn depths(&self) -> &[u32] {
        &self.depths
    }

    /// The depth before the instruction at an offset, or at the code's end; none where no path leads, and where no
    /// instruction starts.
    #[must_use]
    pub fn depth_at(&self, offset: usize) -> Option<u16> {
        let depth = *self.depths.get(offset)?;
        u16::try_from(depth).ok()
    }
}

/// Checks code from its starts: an offset, its depth, the next offset, and so on. The time is in proportion to the code's
/// length and the number of starts (measured, not proved). Who checks again and again keeps a [`Checker`].
///
/// # Errors
/// In this order: 10 for code over 1,048,576 bytes; 1 or 22, which name the lowest faulty offset; 20 for starts that
/// are none; 23 where no depths can be given.
///
/// ```
/// use tokenfinch::{Refusal, check};
///
/// let code = [0x06, 0x5A, 0x03, 0x00, 0x08, 0x07, 0x00, 0x05, 0x65];
/// let checked = check(&code, &[0, 0])?;
/// assert_eq!(checked.count(), 6);
/// assert_eq!(checked.greatest(), 1);
/// assert_eq!(checked.depth_at(4), Some(0));
/// assert_eq!(checked.depth_at(9), None);
/// // A loop that leaves a value on the stack each time round.
/// assert_eq!(check(&[0x05, 0x58, 0xFC, 0xFF], &[0, 0]), Err(Refusal::NoDepths));
/// # Ok::<(), Refusal>(())
/// ```
pub fn check(code: &[u8], starts: &[u32]) -> Result<Checked, Refusal> {
    check_in(Mode::Net, code, starts)
}

/// The same in a mode.
///
/// # Errors
/// As [`check`]; in strict mode, where that accepts, 26 with the lowest offset of an instruction that needs more values
/// than the stack holds there.
///
/// ```
/// use tokenfinch::{Mode, Refusal, check_in};
///
/// // One value is loaded, and Rot2 swaps two: in all it adds and takes nothing, so the other mode lets it pass.
/// let code = [0x05, 0x02, 0x65];
/// assert_eq!(check_in(Mode::Strict, &code, &[0, 0]), Err(Refusal::TooFewValues(1)));
/// assert_eq!(check_in(Mode::Net, &code, &[0, 1])?, check_in(Mode::Strict, &code, &[0, 1])?);
/// # Ok::<(), Refusal>(())
/// ```
pub fn check_in(mode: Mode, code: &[u8], starts: &[u32]) -> Result<Checked, Refusal> {
    let mut checker = Checker::in_mode(mode);
    checker.check(code, starts)?;
    Ok(checker.checked)
}

/// The same, and where no depths can be given also why. The reason is proved to hold; where several do, it is one of them.
///
/// # Errors
/// As [`check`]; 23 has its [`Reason`].
///
/// ```
/// use tokenfinch::{Reason, explain};
///
/// // A loop that leaves a value on the stack each time round.
/// let error = explain(&[0x05, 0x58, 0xFC, 0xFF], &[0, 0]).unwrap_err();
/// assert_eq!(error.refusal().number(), 23);
/// assert_eq!(error.reason(), Some(Reason::TwoDepths { place: 0, depths: [0, 1] }));
/// // A Pop where the stack is empty.
/// let error = explain(&[0x00], &[0, 0]).unwrap_err();
/// assert_eq!(error.reason(), Some(Reason::DepthOutOfRange { at: 0, depth: 0 }));
/// ```
pub fn explain(code: &[u8], starts: &[u32]) -> Result<Checked, CheckError> {
    explain_in(Mode::Net, code, starts)
}

/// The same in a mode.
///
/// # Errors
/// As [`check_in`]; 23 and 26 have their [`Reason`].
///
/// ```
/// use tokenfinch::{Mode, Reason, explain_in};
///
/// let error = explain_in(Mode::Strict, &[0x05, 0x02, 0x65], &[0, 0]).unwrap_err();
/// assert_eq!(error.reason(), Some(Reason::TooFewValues { at: 1, depth: 1, need: 2 }));
/// ```
pub fn explain_in(mode: Mode, code: &[u8], starts: &[u32]) -> Result<Checked, CheckError> {
    let mut checker = Checker::in_mode(mode);
    checker.explain(code, starts)?;
    Ok(checker.checked)
}

/// The same as [`check_in`] into lent slices. The first cells of `depths`, one more than the code has bytes, hold the
/// depths and [`NO_DEPTH`] elsewhere; on 23 and 26 they all hold that; any other refusal writes nothing there. As many
/// cells of `work`
/// are used, whatever they hold, and end with zeros, accepted or not; 10 and 21 leave them as they are. No later cell of
/// either is ever written.
///
/// # Errors
/// As [`check_in`], with 21 behind 10 where one of the slices is too short.
///
/// ```
/// use tokenfinch::{Assignment, Mode, NO_DEPTH, Refusal, check_into};
///
/// let (mut depths, mut work) = ([0; 4], [7; 4]);
/// let assignment = check_into(Mode::Net, &[0x05, 0x65], &[0, 0], &mut depths, &mut work)?;
/// assert_eq!(assignment, Assignment { count: 2, greatest: 1 });
/// assert_eq!(depths, [0, 1, NO_DEPTH, 0]);
/// assert_eq!(work, [0, 0, 0, 7]);
/// # Ok::<(), Refusal>(())
/// ```
pub fn check_into(
    mode: Mode,
    code: &[u8],
    starts: &[u32],
    depths: &mut [u32],
    work: &mut [u32],
) -> Result<Assignment, Refusal> {
    let mut greatest = 0;
    let answer = sys::check(mode as u8, code, starts, depths, work, &mut greatest);
    Assignment::told(answer, greatest)
}

/// A checker that keeps its memory from one call to the next, for an editor that checks at each keystroke. It keeps nothing
/// else: each call answers as [`check_in`] and [`explain_in`] do in its mode.
///
/// ```
/// use tokenfinch::{CheckError, Checker};
///
/// let mut checker = Checker::new();
/// let mut code = vec![0x05];
/// assert_eq!(checker.explain(&code, &[0, 0])?.depth_at(1), Some(1));
/// code.extend([0x00, 0x00]);
/// let why = checker.explain(&code, &[0, 0]).unwrap_err();
/// assert_eq!(
///     why.to_string(),
///     "refused 23: no depths can be given: the instruction at offset 2 takes the depth 0 below 0, or above 65,535"
/// );
/// code.pop();
/// assert_eq!(checker.explain(&code, &[0, 0])?.count(), 2);
/// # Ok::<(), CheckError>(())
/// ```
#[derive(Debug, Clone)]
pub struct Checker {
    mode: Mode,
    checked: Checked,
    work: Vec<u32>,
}

impl Default for Checker {
    fn default() -> Self {
        Self::new()
    }
}

impl Checker {
    /// One that has no memory yet, in the mode [`Mode::Net`].
    #[must_use]
    pub fn new() -> Self {
        Self::in_mode(Mode::Net)
    }

    /// The same in a mode.
    #[must_use]
    pub fn in_mode(mode: Mode) -> Self {
        let (assignment, depths) = (Assignment { count: 0, greatest: 0 }, Vec::new());
        Self {
            mode,
            checked: Checked { assignment, depths },
            work: Vec::new(),
        }
    }

    /// As [`check_in`].
    ///
    /// # Errors
    /// As [`check_in`].
    pub fn check(&mut self, code: &[u8], starts: &[u32]) -> Result<&Checked, Refusal> {
        self.make_room(code);
        self.checked.assignment = check_into(self.mode, code, starts, &mut self.checked.depths, &mut self.work)?;
        Ok(&self.checked)
    }

    /// As [`explain_in`].
    ///
    /// # Errors
    /// As [`explain_in`].
    pub fn explain(&mut self, code: &[u8], starts: &[u32]) -> Result<&Checked, CheckError> {
        self.make_room(code);
        let (mut greatest, mut told) = (0, [0; Reason::CELLS]);
        let Checked { assignment, depths } = &mut self.checked;
        let answer = sys::explain(
            self.mode as u8,
            code,
            starts,
            depths,
            &mut self.work,
            &mut greatest,
            &mut told,
        );
        *assignment = Assignment::told(answer, greatest).map_err(|refusal| CheckError::new(refusal, told))?;
        Ok(&self.checked)
    }

    /// Makes both slices as long as the code asks for. What they hold does not matter.
    fn make_room(&mut self, code: &[u8]) {
        // Code over the limit is refused before the cells are asked for.
        let cells = code.len().min(CODE_MOST) + 1;
        self.checked.depths.resize(cells, NO_DEPTH);
        self.work.resize(cells, 0);
    }
}

#[cfg(test)]
mod tests {
    use super::*;

    #[test]
    fn a_checker_answers_as_one_that_is_new() {
        let mut checkers = [Mode::Net, Mode::Strict].map(Checker::in_mode);
        let nops = vec![105; CODE_MOST + 1];
        for (code, starts) in [
            (&nops[..9], &[0, 3][..]),
            (&nops[..2], &[0, 0]),
            (&[5, 88, 0xFC, 0xFF], &[0, 0]),
            (&nops[..CODE_MOST], &[0, 0]),
            (&nops, &[0, 0]),
            (&[131], &[]),
            (&[8], &[]),
            (&nops[..3], &[9, 9]),
            (&[], &[0, 1]),
            (&[6, 90, 1, 0, 5], &[0, 0]),
            (&[5, 23, 47], &[0, 0]),
        ] {
            for checker in &mut checkers {
                let checked = check_in(checker.mode, code, starts);
                assert_eq!(checker.check(code, starts).cloned(), checked);
                let explained = checker.explain(code, starts).cloned();
                assert_eq!(explained, explain_in(checker.mode, code, starts));
                assert_eq!(explained.map_err(CheckError::refusal), checked);
            }
        }
    }

    #[test]
    fn strict_mode_asks_for_what_is_needed() {
        let short = |code: &[u8], depth| explain_in(Mode::Strict, code, &[0, depth]).map_err(|error| error.reason());
        // An addition, a Rot3 behind a Nop, a negation.
        for (code, at, need) in [(&[23][..], 0, 2), (&[105, 3], 1, 3), (&[47], 0, 1)] {
            let depth = need - 1;
            let too_few = Some(Reason::TooFewValues { at, depth, need });
            assert_eq!(short(code, depth.into()), Err(too_few));
            assert_eq!(short(code, need.into()), Ok(check(code, &[0, need.into()]).unwrap()));
        }
        // Of two the first is named, though the other has less; what no start leads to needs nothing.
        assert_eq!(
            check_in(Mode::Strict, &[105, 23, 47], &[0, 1]),
            Err(Refusal::TooFewValues(1))
        );
        let behind_a_return = [47, 101, 23];
        assert_eq!(
            check_in(Mode::Strict, &behind_a_return, &[0, 1]),
            check(&behind_a_return, &[0, 1])
        );
    }

    #[test]
    fn the_greatest_depth_is_told_wherever_it_stands() {
        let greatest = |code: &[u8], starts: &[u32]| check(code, starts).map(|checked| checked.greatest());
        let up_and_down = [5, 5, 0, 0, 5, 101];
        assert_eq!(greatest(&up_and_down, &[0, 0]), Ok(2));
        assert_eq!(greatest(&up_and_down[..2], &[0, 0]), Ok(2));
        assert_eq!(greatest(&up_and_down, &[0, 0, 6, 9]), Ok(9));
        assert_eq!(greatest(&[101], &[0, 65_535]), Ok(65_535));
        assert_eq!(greatest(&[], &[0, 65_535]), Ok(65_535));
        assert_eq!(greatest(&[105], &[0, 0]), Ok(0));
        assert_eq!(greatest(&up_and_down, &[]), Ok(0));
    }

    #[test]
    fn each_reason_is_told() {
        let why = |code: &[u8], starts: &[u32]| explain(code, starts).unwrap_err().reason();
        let two = |place, depths| Some(Reason::TwoDepths { place, depths });
        assert_eq!(why(&[], &[0, 1, 0, 2]), two(0, [1, 2]));
        assert_eq!(why(&[5, 88, 0xFC, 0xFF], &[0, 7]), two(0, [7, 8]));
        let falls = |at, depth| Some(Reason::DepthOutOfRange { at, depth });
        assert_eq!(why(&[5, 0, 0], &[0, 0]), falls(2, 0));
        assert_eq!(why(&[5], &[0, 65_535]), falls(0, 65_535));
        let taken = Some(Reason::TakenOutOfRange { at: 0, depth: 0 });
        assert_eq!(why(&[94, 0, 0], &[0, 0]), taken);
        assert_eq!(why(&[88, 9, 0], &[0, 4]), Some(Reason::NoPlace { at: 0, depth: 4 }));
        assert_eq!(why(&[88, 0, 0x80], &[0, 4]), Some(Reason::NoPlace { at: 0, depth: 4 }));
        assert_eq!(why(&[131], &[0, 0]), None);
    }
}
