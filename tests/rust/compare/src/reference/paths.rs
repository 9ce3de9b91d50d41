//! Paths through a program, by the rules' text: each step goes behind an instruction or takes its jump, and moves the
//! depth by the effect alone. Nothing here keeps a depth in its range, and no place has a depth of its own.

use std::collections::HashSet;

use super::depths::Program;

/// An offset, and a depth there.
pub type Point = (i64, i64);

/// The steps on from a point; none where no instruction starts.
pub fn steps(program: &Program, (offset, depth): Point) -> impl Iterator<Item = Point> {
    let place = usize::try_from(offset).ok();
    let instruction = place.and_then(|place| program.instruction(place));
    let falls = instruction
        .filter(|instruction| instruction.falls)
        .map(|instruction| (offset + instruction.size as i64, depth + instruction.net));
    let jumps = instruction.and_then(|instruction| instruction.jump);
    let jumps = jumps.map(|(goal, effect)| (goal, depth + effect));
    [falls, jumps].into_iter().flatten()
}

/// The least and the greatest depth along all paths from the starts, 0 where there is no start; none where they have
/// more than `most` points, as where a depth grows each time round.
pub fn depths(program: &Program, starts: &[(usize, i64)], most: usize) -> Option<[i64; 2]> {
    let mut seen = HashSet::new();
    let mut waiting: Vec<Point> = starts.iter().map(|&(offset, depth)| (offset as i64, depth)).collect();
    while let Some(point) = waiting.pop() {
        if seen.insert(point) {
            waiting.extend(steps(program, point));
        }
        if seen.len() > most {
            return None;
        }
    }
    let depths = || seen.iter().map(|&(_, depth)| depth);
    Some([depths().min(), depths().max()].map(|depth| depth.unwrap_or(0)))
}
