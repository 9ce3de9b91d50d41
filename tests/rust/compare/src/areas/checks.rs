//! The depth checker through the program `replay` and by itself, beside two checkers written from the rules' text: one that
//! carries depths along, over random code, whole and damaged; and one that tries every assignment, over all short codes of a
//! few bytes.

use super::explained::{self, Case};
use crate::{
    Plan,
    random::Random,
    reference::{
        Decoder,
        depths::{Depths, Mode},
    },
    script::{self, Refusals, Script},
    tally::{Expected, Tally},
};

/// Bytes that stand for what instructions can do: Pop, LoadNone, Jump, JumpIfTrue, JumpIfTrueOrPop, ForIter, ReturnValue,
/// Raise, Nop; and of displacements, 1, which is Dup too, and -3 to -6.
const BYTES: [u8; 14] = [0, 5, 88, 89, 91, 94, 101, 97, 105, 1, 0xfd, 0xfc, 0xfa, 0xff];

pub fn run(tally: &mut Tally, plan: &mut Plan) {
    let program = script::replay();
    let mut refusals = Refusals::default();
    let decoder = Decoder::new();
    let most = plan.amount(4, 3);
    let mut script = Script::default();
    for length in 0..=most {
        each_code(length, &mut |code| {
            short(tally, plan, &mut script, &decoder, code, length < most)
        });
    }
    script.run(tally, &mut refusals, &program, "short code");
    let mut script = Script::default();
    for _ in 0..plan.amount(60_000, 3_000) {
        let case = long(&mut plan.random);
        script.say(line(&mut plan.random, &case));
        explained::one(tally, &decoder, &mut plan.random, &case);
    }
    edges(&mut script);
    script.run(tally, &mut refusals, &program, "long code");
    explained::large(tally, &decoder, plan);
    println!("{refusals}");
}

pub fn each_code(length: usize, visit: &mut impl FnMut(&[u8])) {
    let mut places = vec![0; length];
    loop {
        let code: Vec<u8> = places.iter().map(|&place| BYTES[place]).collect();
        visit(&code);
        let Some(at) = places.iter().position(|&place| place + 1 < BYTES.len()) else {
            return;
        };
        places[..at].fill(0);
        places[at] += 1;
    }
}

/// No start, one or two at the front and behind it, and one that is often no place.
pub fn few_starts(code: &[u8]) -> [Vec<u32>; 6] {
    [
        vec![],
        vec![0, 0],
        vec![0, 1],
        vec![0, 1, 1, 1],
        vec![code.len() as u32, 2, 0, 1],
        vec![3, 0],
    ]
}

fn hex(code: &[u8]) -> String {
    if code.is_empty() {
        "-".to_owned()
    } else {
        code.iter().map(|byte| format!("{byte:02x}")).collect()
    }
}

/// One short code with a few starts; with `search`, also by every assignment.
fn short(tally: &mut Tally, plan: &mut Plan, script: &mut Script, decoder: &Decoder, code: &[u8], search: bool) {
    for starts in few_starts(code) {
        let words: String = starts.iter().map(|number| format!(" {number}")).collect();
        let [answer, _] = Mode::BOTH.map(|mode| script.say(format!("check{} {}{words}", mode.word(), hex(code))));
        if search {
            // One byte moves a depth by one at most, and no start is above 2.
            let searched = Depths::searched(decoder, code, &starts, 2 + code.len() as i64);
            let carried = Depths::new(decoder, code, &starts, code.len() + 1, Mode::Net);
            let told =
                |depths: Result<Depths, _>| depths.map(|depths| (depths.count(), depths.greatest(), depths.held()));
            tally.compare(told(carried), Expected::by_text(told(searched)), || {
                format!("{} {words}: {answer}", hex(code))
            });
        }
        let code = code.to_vec();
        explained::one(tally, decoder, &mut plan.random, &Case { code, starts });
    }
}

/// Random instructions with jumps that often lead to instructions, then perhaps a damaged byte.
pub fn long(random: &mut Random) -> Case {
    let mut code = Vec::new();
    let mut places = vec![0_u32];
    for _ in 0..random.below(30) {
        match random.below(9) {
            0 => code.extend([88 + [0, 1, 2, 3, 4, 6][random.below(6)], random.below(12) as u8, 0]),
            1 => code.extend([
                88 + [0, 1, 2, 3, 4, 6][random.below(6)],
                255 - random.below(20) as u8,
                255,
            ]),
            2 => code.extend([8, random.u8()]),
            3 => code.extend([4, random.u8(), random.u8()]),
            4 => code.push([0, 101, 97, 105][random.below(4)]),
            5 => code.extend([83, random.below(3) as u8, 1, random.u8(), 0]),
            6 => code.push([1, 2, 3, 23, 36, 47, 50, 75, 108][random.below(9)]),
            _ => code.push(5),
        }
        places.push(code.len() as u32);
    }
    if random.below(4) == 0 && !code.is_empty() {
        let at = random.below(code.len());
        code[at] = random.u8();
    }
    let mut starts = Vec::new();
    for _ in 0..random.below(4) {
        let place = if random.below(10) == 0 {
            random.below(70) as u32
        } else {
            places[random.below(places.len())]
        };
        let depth = if random.below(12) == 0 {
            65_530 + random.below(10)
        } else {
            random.below(6)
        };
        starts.extend([place, depth as u32]);
    }
    Case { code, starts }
}

/// A line that checks a case.
fn line(random: &mut Random, case: &Case) -> String {
    let starts: String = case.starts.iter().map(|number| format!(" {number}")).collect();
    let code = hex(&case.code);
    let strict = Mode::BOTH[random.below(2)].word();
    if random.below(3) == 0 {
        let [cells, work] = [(); 2].map(|()| case.code.len() + random.below(6));
        format!("check_slice{strict} {cells} {work} {code}{starts}")
    } else {
        format!("check{strict} {code}{starts}")
    }
}

/// The limits of code and slices.
fn edges(script: &mut Script) {
    for (bytes, cells, work) in [
        (0, 0, 0),
        (0, 0, 1),
        (0, 1, 0),
        (0, 1, 1),
        (1_000, 1_000, 1_001),
        (1_000, 1_001, 1_000),
        (1_000, 1_001, 1_001),
        (131_071, 131_072, 131_072),
        (131_072, 131_072, 131_073),
        (131_072, 131_073, 131_072),
    ] {
        script.say(format!("check_zeros {bytes} {cells} {work}"));
        script.say(format!("check_zeros strict {bytes} {cells} {work}"));
    }
    for bytes in [1_048_575, 1_048_576, 1_048_577, 1_048_600, 1_048_601] {
        script.say(format!("check_zeros {bytes} 131072 131072"));
        script.say(format!("check_zeros {bytes} {} {}", bytes + 1, bytes + 1));
    }
    for (cells, work) in [(2_000_000, 2_000_000), (2_000_001, 2_000_000), (2_000_000, 2_000_001)] {
        script.say(format!("check_zeros 1048576 {cells} {work}"));
        script.say(format!("check_slice {cells} {work} 0565 0 0"));
    }
    for line in [
        "check 05 0",
        "check 05 0 65536",
        "check 05 1 65535",
        "check 05 0 65535",
        "check 8300",
        "check 83",
        "check - 0 0",
    ] {
        script.say(line);
    }
    script.say(format!("check {}", "05".repeat(4_000)));
    script.say(format!("check {} 0 0", "05".repeat(4_000)));
    script.say(format!("check {}", "05".repeat(4_001)));
    script.say(format!("check {}", "05".repeat(500_000)));
    script.say(format!("check {} 0 0", "05".repeat(500_000)));
    script.say(format!("check {} 0 7", "69".repeat(500_000)));
    script.say(format!("check {}", "05".repeat(500_001)));
}
