//! builder.rs: the depths that a builder shows while it is called, before each instruction that it emits and at its
//! end.

use monty::bytecode::builder::CodeBuilder;

use super::builder::code_size;
use crate::script::model::sum;

/// A cell without a depth.
const NONE: u32 = 65_536;

/// What a builder has shown.
#[derive(Default)]
pub struct Shown {
    /// The offset and the depth of each region that was opened.
    pub starts: Vec<u32>,
    /// The depth before the instruction at each offset, none inside of one; last, once it is built, the end's.
    depths: Vec<Option<u16>>,
}

impl Shown {
    /// A region was opened.
    pub fn open(&mut self, builder: &CodeBuilder) {
        let depth = builder.stack_depth().expect("a region is live");
        self.starts.extend([code_size(builder), depth.into()]);
    }

    /// A call was accepted that found the builder at this depth. It emits one instruction at most.
    pub fn follow(&mut self, before: Option<u16>, builder: &CodeBuilder) {
        let at = self.depths.len();
        self.depths.resize(code_size(builder) as usize, None);
        if let Some(depth) = self.depths.get_mut(at) {
            *depth = before;
        }
    }

    /// The code ends here.
    pub fn end(&mut self, builder: &CodeBuilder) {
        self.depths.push(builder.stack_depth());
    }

    /// How many instructions were emitted.
    pub fn count(&self) -> usize {
        let (_end, instructions) = self.depths.split_last().expect("it is built");
        instructions.iter().flatten().count()
    }

    /// The greatest depth before an instruction, or at a live end.
    pub fn greatest(&self) -> u16 {
        self.depths.iter().flatten().copied().max().unwrap_or(0)
    }

    /// The depths in cells.
    pub fn cells(&self) -> Vec<u32> {
        self.depths.iter().map(|depth| depth.map_or(NONE, u32::from)).collect()
    }

    /// What `check_here` has to say of it.
    pub fn line(&self) -> String {
        let sum = sum(self.cells().into_iter().map(u64::from));
        format!("ok {} {} {sum}", self.count(), self.greatest())
    }
}
