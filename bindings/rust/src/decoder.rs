//! Reading code: one step, and all instructions one behind the other.

use std::iter::FusedIterator;

use crate::{
    Opcode, Refusal,
    operand::{Operand, Shape},
    sys,
};

/// An instruction as it stands in code.
#[derive(Debug, Clone, Copy, PartialEq, Eq)]
pub struct Instruction<'a> {
    offset: usize,
    opcode: Opcode,
    operand: Operand,
    size: usize,
    names: &'a [u8],
}

impl<'a> Instruction<'a> {
    /// Where it stands.
    #[must_use]
    pub fn offset(&self) -> usize {
        self.offset
    }

    /// What it does.
    #[must_use]
    pub fn opcode(&self) -> Opcode {
        self.opcode
    }

    /// Its operand.
    #[must_use]
    pub fn operand(&self) -> Operand {
        self.operand
    }

    /// Its bytes, opcode and names among them: the next instruction stands so much further on.
    #[must_use]
    pub fn size(&self) -> usize {
        self.size
    }

    /// The names of a keyword call, in order; of others none.
    pub fn names(&self) -> impl Iterator<Item = u16> + use<'a> {
        let pairs = self.names.chunks_exact(2);
        pairs.map(|pair| u16::from_le_bytes([pair[0], pair[1]]))
    }

    /// All numbers behind the opcode in the order of their bytes, the names last.
    pub fn values(&self) -> impl Iterator<Item = i64> + use<'a> {
        self.operand.values().chain(self.names().map(i64::from))
    }

    /// Where a jump leads, which may be outside of the code; none if it is no jump.
    #[must_use]
    pub fn target(&self) -> Option<i64> {
        let Operand::Offset(displacement) = self.operand else {
            return None;
        };
        let behind = i64::try_from(self.offset + self.size).ok()?;
        Some(behind + i64::from(displacement))
    }

    /// The depth behind it where it stood at `depth` and falls through.
    ///
    /// # Errors
    /// 4 below 0, 5 above 65,535.
    pub fn depth_after(&self, depth: u16) -> Result<u16, Refusal> {
        let (a, b, c, names) = self.operand.fields();
        crate::rules::depth_after(depth, self.opcode as u8, self.operand.shape() as u8, a, b, c, names)
    }

    /// The depth that its jump arrives with where it stood at `depth`.
    ///
    /// # Errors
    /// 3 where it is no jump; 4 below 0.
    ///
    /// ```
    /// use tokenfinch::{Opcode, Refusal, instructions};
    ///
    /// let code = [Opcode::JumpIfTrue as u8, 0, 0];
    /// for jump in instructions(&code) {
    ///     let jump = jump?;
    ///     assert_eq!(jump.depth_taken(1), Ok(0));
    ///     assert_eq!(jump.depth_taken(0), Err(Refusal::DepthBelowZero));
    /// }
    /// # Ok::<(), Refusal>(())
    /// ```
    pub fn depth_taken(&self, depth: u16) -> Result<u16, Refusal> {
        crate::rules::depth_taken(depth, self.opcode as u8)
    }
}

/// Reads the instruction at an offset, as if one began there; none at the code's end and past it.
///
/// # Errors
/// 1 and 22, which name the offset.
pub fn step(code: &[u8], at: usize) -> Result<Option<Instruction<'_>>, Refusal> {
    let mut cells = [0; 8];
    let found = sys::step(code, at, &mut cells)
        .value()
        .map_err(|refusal| refusal.read_at(at))?;
    if found == 0 {
        return Ok(None);
    }
    // The library answers numbers that fit: they are an instruction's.
    let [opcode, size, shape, a, b, c, names, names_at] = cells;
    let names_at = names_at as usize;
    Ok(Some(Instruction {
        offset: at,
        opcode: Opcode::try_from(opcode as u8)?,
        operand: Operand::of(Shape::ALL[shape as usize], a as u16, b as u16, c as u8, names as u8),
        size: size as usize,
        names: code.get(names_at..names_at + 2 * names as usize).unwrap_or_default(),
    }))
}

/// The instructions of code, from its first byte on. A fault is the last item.
///
/// ```
/// use tokenfinch::instructions;
///
/// let code = [0x06, 0x5A, 0x03, 0x00, 0x08, 0x07, 0x00, 0x05, 0x65];
/// let listing: Vec<String> = instructions(&code)
///     .map(|read| read.map(|i| format!("{} {:?}", i.offset(), i.opcode())))
///     .collect::<Result<_, _>>()?;
/// assert_eq!(listing[..2], ["0 LoadTrue", "1 JumpIfFalse"]);
///
/// let mut damaged = instructions(&[0x05, 0x5A, 0x03]);
/// assert!(damaged.next().is_some_and(|read| read.is_ok()));
/// assert_eq!(
///     damaged.next().map(|read| read.unwrap_err().to_string()).as_deref(),
///     Some("refused 22 at offset 1: an instruction is cut short by the code's end")
/// );
/// assert!(damaged.next().is_none());
/// # Ok::<(), tokenfinch::Refusal>(())
/// ```
#[must_use]
pub fn instructions(code: &[u8]) -> Instructions<'_> {
    Instructions { code, at: Some(0) }
}

/// The iterator of [`instructions`].
#[derive(Debug, Clone)]
pub struct Instructions<'a> {
    code: &'a [u8],
    /// Where to read on; none behind the end or a fault.
    at: Option<usize>,
}

impl<'a> Iterator for Instructions<'a> {
    type Item = Result<Instruction<'a>, Refusal>;

    fn next(&mut self) -> Option<Self::Item> {
        let read = step(self.code, self.at.take()?).transpose()?;
        self.at = read
            .as_ref()
            .ok()
            .map(|instruction| instruction.offset + instruction.size);
        Some(read)
    }
}

impl FusedIterator for Instructions<'_> {}
