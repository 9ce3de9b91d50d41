//! Which instruction, or start, brings a depth to a place. This finds words for a verdict that the library has given, and
//! decides nothing.

use tokenfinch::{Instruction, step};

/// Where a way to a place comes from.
#[derive(Clone, Copy, Debug, PartialEq, Eq)]
pub enum Origin {
    Start,
    Instruction(usize),
}

/// The ways that were found to one place: each depth once, with where it comes from.
pub struct Origins {
    place: usize,
    found: Vec<(u16, Origin)>,
    /// By offset, the first depth that a way brings there.
    depths: Vec<Option<u16>>,
    waiting: Vec<usize>,
}

impl Origins {
    /// Follows the ways from the starts, from each place on with the first depth that is brought there; in the library's
    /// order, so that the two depths that it names are met.
    pub fn of(code: &[u8], starts: &[u32], place: usize) -> Self {
        let mut ways = Self {
            place,
            found: Vec::new(),
            depths: vec![None; code.len() + 1],
            waiting: Vec::new(),
        };
        for start in starts.chunks_exact(2) {
            ways.arrive(Origin::Start, start[0].into(), start[1] as u16);
        }
        while let Some(at) = ways.waiting.pop() {
            if let (Some(depth), Ok(Some(instruction))) = (ways.depths[at], step(code, at)) {
                ways.follow(&instruction, depth);
            }
        }
        ways
    }

    /// Where a depth of the place comes from.
    pub fn origin(&self, depth: u16) -> Option<Origin> {
        let way = self.found.iter().find(|(brought, _)| *brought == depth);
        way.map(|(_, origin)| *origin)
    }

    fn arrive(&mut self, from: Origin, to: i64, depth: u16) {
        let Some(at) = usize::try_from(to).ok().filter(|at| *at < self.depths.len()) else {
            return;
        };
        if at == self.place && self.origin(depth).is_none() {
            self.found.push((depth, from));
        }
        if self.depths[at].is_none() {
            self.depths[at] = Some(depth);
            self.waiting.push(at);
        }
    }

    /// The jump first, so that what follows the instruction is visited next.
    fn follow(&mut self, instruction: &Instruction<'_>, depth: u16) {
        let from = Origin::Instruction(instruction.offset());
        if let (Some(target), Ok(taken)) = (instruction.target(), instruction.depth_taken(depth)) {
            self.arrive(from, target, taken);
        }
        let behind = instruction.offset() + instruction.size();
        match instruction.depth_after(depth) {
            Ok(falls) if !instruction.opcode().makes_dead() => self.arrive(from, behind as i64, falls),
            _ => {}
        }
    }
}

#[cfg(test)]
mod tests {
    use super::*;

    #[test]
    fn ways_are_told_by_their_depths() {
        let told = |code: &[u8], starts: &[u32], place, depth| Origins::of(code, starts, place).origin(depth);
        let loops = [5, 88, 0xFC, 0xFF];
        assert_eq!(told(&loops, &[0, 0], 0, 0), Some(Origin::Start));
        assert_eq!(told(&loops, &[0, 0], 0, 1), Some(Origin::Instruction(1)));
        assert_eq!(told(&loops, &[0, 0], 0, 2), None);
        // Over the LoadNone, and by it.
        let over = [6, 90, 1, 0, 5];
        assert_eq!(told(&over, &[0, 0], 5, 0), Some(Origin::Instruction(1)));
        assert_eq!(told(&over, &[0, 0], 5, 1), Some(Origin::Instruction(4)));
        assert_eq!(told(&[], &[0, 1, 0, 2], 0, 2), Some(Origin::Start));
        assert_eq!(told(&[88, 9, 0], &[0, 0, 7, 7], 12, 0), None);
    }
}
