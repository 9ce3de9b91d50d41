//! Builds the rules of one of bench's works on one side, for bench/count.
//!
//! Usage: emit SIDE WORK ROUNDS      SIDE is original, crate or lent; WORK counts from 0
//!        emit                       lists the works: number, rounds, instructions of a rule (in dead code the
//!                                   calls), and what it is

use std::env;

use bench::{
    building::{ByCrate, ByLent, Original, Shape, Side, WORKS},
    decode,
};

fn list() {
    for (number, (what, work)) in WORKS.into_iter().enumerate() {
        let calls = match work.shape {
            Shape::Dead => work.turns.into(),
            _ => decode::plain(&Original.made(work).bytes),
        };
        println!("{number}\t{}\t{calls}\t{what}", work.rounds);
    }
}

fn main() {
    let words: Vec<String> = env::args().skip(1).collect();
    let [side, work, rounds] = &words[..] else {
        return list();
    };
    let (_, work) = WORKS[work.parse::<usize>().expect("a work's number")];
    let mut side: Box<dyn Side> = match side.as_str() {
        "original" => Box::new(Original),
        "crate" => Box::new(ByCrate),
        "lent" => Box::new(ByLent::default()),
        other => panic!("no side {other}"),
    };
    for _ in 0..rounds.parse().expect("a number of rounds") {
        side.size(work);
    }
}
