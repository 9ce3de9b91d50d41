//! FNV-1a of bytes against the published hashes and a plain Rust one, and the fingerprint of the opcode table against the
//! original's own names and shapes. The original's own function is compiled for its tests alone: tests/rust/monty asks it.

use crate::{
    Plan, proved,
    random::Random,
    reference::{hash, published},
    tally::{Expected, Tally},
};

/// Every length up to here is hashed.
const EACH_LENGTH: usize = 1_100;

const LONGEST: usize = 1 << 20;

pub fn run(tally: &mut Tally, plan: &mut Plan) {
    tally.compare(proved::fingerprint(), Expected::by_rust(hash::fingerprint()), || {
        "the table".to_owned()
    });
    tally.compare(proved::fnv1a_of_nothing(), Expected::by_text(hash::fnv1a([])), || {
        "null".to_owned()
    });
    for (times, bytes, wanted) in published::GO.into_iter().chain(published::NOLL) {
        let case = || format!("as published, {times} times \"{}\"", bytes.escape_ascii());
        tally.compare(proved::fnv1a(&bytes.repeat(times)), Expected::by_text(wanted), case);
    }
    for byte in 0..=u8::MAX {
        for length in [1, 2, 9] {
            one(tally, &vec![byte; length], || format!("{length} times {byte}"));
        }
    }
    let bytes = random_bytes(&mut plan.random, LONGEST);
    for length in 0..=EACH_LENGTH {
        one(tally, &bytes[..length], || format!("{length} random bytes"));
    }
    for _ in 0..plan.amount(200, 10) {
        let (from, length) = (plan.random.below(LONGEST / 2), plan.random.below(LONGEST / 2));
        one(tally, &bytes[from..from + length], || {
            format!("{length} random bytes from {from} on")
        });
    }
    one(tally, &bytes, || format!("{LONGEST} random bytes"));
}

fn one(tally: &mut Tally, bytes: &[u8], case: impl FnOnce() -> String) {
    let wanted = Expected::by_text(hash::fnv1a(bytes.iter().copied()));
    tally.compare(proved::fnv1a(bytes), wanted, case);
}

fn random_bytes(random: &mut Random, length: usize) -> Vec<u8> {
    (0..length).map(|_| random.u8()).collect()
}
