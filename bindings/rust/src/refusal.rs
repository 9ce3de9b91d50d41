//! The refusals, their numbers, what each names, and the words for them.

use std::{error::Error, fmt};

/// Why a call was refused. A refused call has changed nothing.
#[derive(Debug, Clone, Copy, PartialEq, Eq, Hash)]
#[non_exhaustive]
pub enum Refusal {
    /// 1: the opcode that was given is above 130.
    UnknownOpcode,
    /// 1: the byte that was read at this offset is no opcode.
    UnknownOpcodeAt(usize),
    /// 2: the operand is not of the opcode's shape.
    WrongShape,
    /// 3: the opcode is no jump.
    NotAJump,
    /// 4: the depth would fall below 0, falling through or where a jump is taken.
    DepthBelowZero,
    /// 5: the depth would rise above 65,535.
    DepthTooLarge,
    /// 6: the displacement is not within -32,768 to 32,767.
    JumpTooFar,
    /// 7: over 255 keyword names.
    TooManyKeywords,
    /// 8: a name's number is over 65,535.
    NameTooLarge,
    /// 9: 65,536 constants are held.
    TooManyConstants,
    /// 10: an exception's offset over 4,294,967,295, or checked code over 1,048,576 bytes.
    TooLarge,
    /// 11: a jump meets another depth.
    DepthsDiffer,
    /// 12: live code jumps to a target that was taken in dead code.
    DeadTarget,
    /// 13: no label or target of that kind is held.
    NoSuchMark,
    /// 14: the label is already patched.
    AlreadyPatched,
    /// 15: a region was opened while the code is live.
    RegionWhileLive,
    /// 16: names are already held.
    NamesHeld,
    /// 17: a label is not patched.
    OpenLabel,
    /// 18: a table has no room.
    Full(Table),
    /// 19: the state does not fit the tables.
    Unsound,
    /// 20: the starts are no list of offsets and depths of this code.
    BadStarts,
    /// 21: of the checker's two slices, one has fewer cells than there are bytes of code and one.
    ShortDepths,
    /// 22: the instruction at this offset is cut short by the code's end.
    CutShort(usize),
    /// 23: no depths can be given to the instructions.
    NoDepths,
    /// 24: a line that is not formed as `listing` forms one.
    NotALine,
    /// 25: a line's offset or target is not the one that results.
    Disagrees,
    /// 26: in strict mode, the instruction at this offset needs more values than the stack holds there.
    TooFewValues(usize),
    /// A number that this crate does not know, as its archive is newer than it.
    Other(u32),
}

/// A lent table.
#[derive(Debug, Clone, Copy, PartialEq, Eq, Hash)]
pub enum Table {
    /// The bytes of the code.
    Code = 1,
    /// Where the instructions come from in the source.
    Locations = 2,
    /// Which code is guarded by which handler.
    Exceptions = 3,
    /// The constants.
    Constants = 4,
    /// The names of the local slots.
    Names = 5,
    /// The labels and targets of jumps.
    Marks = 6,
    /// Where regions start, and with which depth.
    Starts = 7,
    /// What an answer is written to.
    Text = 8,
}

impl Table {
    const ALL: [Self; 8] = [
        Self::Code,
        Self::Locations,
        Self::Exceptions,
        Self::Constants,
        Self::Names,
        Self::Marks,
        Self::Starts,
        Self::Text,
    ];

    /// Its word.
    #[must_use]
    pub fn word(self) -> &'static str {
        match self {
            Self::Code => "code",
            Self::Locations => "locations",
            Self::Exceptions => "exceptions",
            Self::Constants => "constants",
            Self::Names => "names",
            Self::Marks => "marks",
            Self::Starts => "starts",
            Self::Text => "text",
        }
    }
}

impl fmt::Display for Table {
    fn fmt(&self, f: &mut fmt::Formatter<'_>) -> fmt::Result {
        f.write_str(self.word())
    }
}

impl Refusal {
    /// The refusal of a number, with what the answer's lower half names: a table for 18. An offset is told by
    /// `read_at`.
    pub(crate) fn of(number: u32, named: u32) -> Self {
        match number {
            1 => Self::UnknownOpcode,
            2 => Self::WrongShape,
            3 => Self::NotAJump,
            4 => Self::DepthBelowZero,
            5 => Self::DepthTooLarge,
            6 => Self::JumpTooFar,
            7 => Self::TooManyKeywords,
            8 => Self::NameTooLarge,
            9 => Self::TooManyConstants,
            10 => Self::TooLarge,
            11 => Self::DepthsDiffer,
            12 => Self::DeadTarget,
            13 => Self::NoSuchMark,
            14 => Self::AlreadyPatched,
            15 => Self::RegionWhileLive,
            16 => Self::NamesHeld,
            17 => Self::OpenLabel,
            18 => Self::Full(Self::table(named)),
            19 => Self::Unsound,
            20 => Self::BadStarts,
            21 => Self::ShortDepths,
            22 => Self::CutShort(named as usize),
            23 => Self::NoDepths,
            24 => Self::NotALine,
            25 => Self::Disagrees,
            26 => Self::TooFewValues(named as usize),
            other => Self::Other(other),
        }
    }

    /// Where no table is named, it is the one that the answer is written to.
    fn table(named: u32) -> Table {
        let known = Table::ALL.into_iter().find(|table| *table as u32 == named);
        known.unwrap_or(Table::Text)
    }

    /// The same with the offset of the byte or the instruction that it is about.
    pub(crate) fn read_at(self, offset: usize) -> Self {
        match self {
            Self::UnknownOpcode => Self::UnknownOpcodeAt(offset),
            Self::CutShort(_) => Self::CutShort(offset),
            other => other,
        }
    }

    /// Its number, the same in every language and document.
    #[must_use]
    pub fn number(self) -> u32 {
        match self {
            Self::UnknownOpcode | Self::UnknownOpcodeAt(_) => 1,
            Self::WrongShape => 2,
            Self::NotAJump => 3,
            Self::DepthBelowZero => 4,
            Self::DepthTooLarge => 5,
            Self::JumpTooFar => 6,
            Self::TooManyKeywords => 7,
            Self::NameTooLarge => 8,
            Self::TooManyConstants => 9,
            Self::TooLarge => 10,
            Self::DepthsDiffer => 11,
            Self::DeadTarget => 12,
            Self::NoSuchMark => 13,
            Self::AlreadyPatched => 14,
            Self::RegionWhileLive => 15,
            Self::NamesHeld => 16,
            Self::OpenLabel => 17,
            Self::Full(_) => 18,
            Self::Unsound => 19,
            Self::BadStarts => 20,
            Self::ShortDepths => 21,
            Self::CutShort(_) => 22,
            Self::NoDepths => 23,
            Self::NotALine => 24,
            Self::Disagrees => 25,
            Self::TooFewValues(_) => 26,
            Self::Other(number) => number,
        }
    }

    /// The offset of the code that it names, if it names one.
    #[must_use]
    pub fn offset(self) -> Option<usize> {
        match self {
            Self::UnknownOpcodeAt(offset) | Self::CutShort(offset) | Self::TooFewValues(offset) => Some(offset),
            _ => None,
        }
    }

    /// The table that it names, if it names one.
    #[must_use]
    pub fn full_table(self) -> Option<Table> {
        match self {
            Self::Full(table) => Some(table),
            _ => None,
        }
    }

    /// What it means, for the one who wrote the rule or the compiler.
    #[must_use]
    pub fn in_words(self) -> &'static str {
        match self {
            Self::UnknownOpcode => "the number is no opcode",
            Self::UnknownOpcodeAt(_) => "a byte stands where an opcode should, and is none",
            Self::WrongShape => "the opcode takes an operand of another shape",
            Self::NotAJump => "the opcode is no jump",
            Self::DepthBelowZero => "the instruction takes more from the stack than is there",
            Self::DepthTooLarge => "the stack would hold over 65,535 values",
            Self::JumpTooFar => "the jump is too far: it reaches 32,767 bytes ahead and 32,768 back",
            Self::TooManyKeywords => "the call has over 255 keyword names",
            Self::NameTooLarge => "the name's number is over 65,535",
            Self::TooManyConstants => "65,536 constants are held, and there can be no more",
            Self::TooLarge => "the code is over 1,048,576 bytes, or an exception's offset over 4,294,967,295",
            Self::DepthsDiffer => "two paths meet with different depths of the stack",
            Self::DeadTarget => "the jump is live, and its target was taken where no code runs",
            Self::NoSuchMark => "there is no such label or target",
            Self::AlreadyPatched => "the label already leads somewhere",
            Self::RegionWhileLive => "a region was opened where the code before it still runs on",
            Self::NamesHeld => "names are already held",
            Self::OpenLabel => "a jump has not been told where it leads",
            Self::Full(_) => "there is no room left",
            Self::Unsound => "what the builder holds has been changed from outside, and does not fit together",
            Self::BadStarts => "a start is at no instruction and not at the end, or its depth is over 65,535",
            Self::ShortDepths => "fewer depths or work cells are lent than bytes of code and one",
            Self::CutShort(_) => "an instruction is cut short by the code's end",
            Self::NoDepths => "no depths can be given",
            Self::NotALine => "not a line that listing prints",
            Self::Disagrees => "the offset or the target is not the one that results",
            Self::TooFewValues(_) => "an instruction needs more values than the stack holds",
            Self::Other(_) => "the library refuses by a number that this crate does not know",
        }
    }
}

impl fmt::Display for Refusal {
    fn fmt(&self, f: &mut fmt::Formatter<'_>) -> fmt::Result {
        write!(f, "refused {}", self.number())?;
        if let Some(offset) = self.offset() {
            write!(f, " at offset {offset}")?;
        }
        if let Some(table) = self.full_table() {
            write!(f, " ({table})")?;
        }
        write!(f, ": {}", self.in_words())
    }
}

impl Error for Refusal {}

/// Why a text was not read: the refusal, and the first bad line.
#[derive(Debug, Clone, Copy, PartialEq, Eq, Hash)]
pub struct ReadError {
    refusal: Refusal,
    line: usize,
}

impl ReadError {
    pub(crate) fn new(refusal: Refusal, line: usize) -> Self {
        Self { refusal, line }
    }

    /// What is wrong with the line.
    #[must_use]
    pub fn refusal(self) -> Refusal {
        self.refusal
    }

    /// The line's number, from 1 on (modulo 2^32, as it crosses).
    #[must_use]
    pub fn line(self) -> usize {
        self.line
    }
}

impl fmt::Display for ReadError {
    fn fmt(&self, f: &mut fmt::Formatter<'_>) -> fmt::Result {
        write!(f, "line {}: {}", self.line, self.refusal)
    }
}

impl Error for ReadError {}

#[cfg(test)]
mod tests {
    use super::*;

    #[test]
    fn every_number_is_read_back() {
        for number in 1..=40 {
            assert_eq!(Refusal::of(number, 3).number(), number);
        }
        assert_eq!(Refusal::of(18, 3), Refusal::Full(Table::Exceptions));
        assert_eq!(Refusal::of(18, 0), Refusal::Full(Table::Text));
    }

    #[test]
    fn offsets_and_tables_are_named() {
        let cut = Refusal::CutShort(0).read_at(23);
        assert_eq!(
            cut.to_string(),
            "refused 22 at offset 23: an instruction is cut short by the code's end"
        );
        assert_eq!(
            Refusal::Full(Table::Marks).to_string(),
            "refused 18 (marks): there is no room left"
        );
        assert_eq!(Refusal::NoDepths.to_string(), "refused 23: no depths can be given");
        assert_eq!(
            ReadError::new(Refusal::NotALine, 7).to_string(),
            "line 7: refused 24: not a line that listing prints"
        );
    }
}
