//! How much stack code needs: the greatest depth that the checker tells, beside a search over all paths, for every code
//! of up to four bytes of a few and for long random code; and beside the original builder, which has depths of its own
//! before each instruction and at a live end.

use super::{
    checks::{each_code, few_starts, long},
    explained::Case,
};
use crate::{
    Plan,
    original::Shown,
    proved::{self, Answer, Lent},
    reference::{
        Decoder,
        depths::{Mode, Program},
        paths,
    },
    script,
    tally::{Expected, Tally},
};

/// More points than accepted code of these lengths has on its paths.
const POINTS_MOST: usize = 1_000;

/// Beside the search.
pub fn searched(tally: &mut Tally, plan: &mut Plan) {
    let decoder = Decoder::new();
    for length in 0..=plan.amount(4, 3) {
        each_code(length, &mut |code| {
            for starts in few_starts(code) {
                let code = code.to_vec();
                along_paths(tally, &decoder, &Case { code, starts });
            }
        });
    }
    for _ in 0..plan.amount(20_000, 1_000) {
        along_paths(tally, &decoder, &long(&mut plan.random));
    }
}

/// Beside the builder.
pub fn built(tally: &mut Tally, plan: &mut Plan) {
    let programs = plan.amount(1_000, 100);
    script::builds(&mut plan.random, programs, |code, shown| {
        while_built(tally, code, shown)
    });
}

/// The greatest depth of accepted code, by a search; on no path is a depth below 0.
fn along_paths(tally: &mut Tally, decoder: &Decoder, case: &Case) {
    let (answer, lent) = checked(&case.code, &case.starts);
    if answer.refusal() != 0 {
        return;
    }
    let program = Program::read(decoder, &case.code).expect("accepted code has no fault");
    let starts = program.starts(&case.starts).expect("accepted starts are places");
    let depths = paths::depths(&program, &starts, POINTS_MOST);
    let greatest = depths.filter(|[least, _]| *least >= 0).map(|[_, greatest]| greatest);
    tally.compare(Some(lent.greatest.into()), Expected::by_text(greatest), || {
        format!("the greatest depth of {case}")
    });
}

/// What is checked of a finished build, by the depths that the builder had.
fn while_built(tally: &mut Tally, code: Vec<u8>, shown: &Shown) {
    let (answer, lent) = checked(&code, &shown.starts);
    let due = (
        Answer::accepted(shown.count() as i32),
        u32::from(shown.greatest()),
        shown.cells(),
    );
    tally.compare((answer, lent.greatest, lent.depths), Expected::by_rust(due), || {
        let starts = shown.starts.clone();
        format!("the depths of {}", Case { code, starts })
    });
}

fn checked(code: &[u8], starts: &[u32]) -> (Answer, Lent) {
    let mut lent = Lent::just(code);
    (proved::check(Mode::Net as u8, code, starts, &mut lent), lent)
}
