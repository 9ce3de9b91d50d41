//! Calls in any order with any numbers, on small tables with tampered counts, depths and cells; and lines that are none.

use super::{Script, parse::TABLES};
use crate::random::Random;

/// Any calls on small tables, with tampering, all cells looked at after each.
pub fn tampered(random: &mut Random, lines: usize) -> Script {
    let mut script = Script::default();
    while script.lines < lines {
        let told = if random.below(2) == 0 {
            "dead".to_owned()
        } else {
            format!("live {}", number(random, 16))
        };
        let sizes: String = [20, 20, 14, 4, 5, 14, 6]
            .iter()
            .map(|most| format!(" {}", random.below(*most)))
            .collect();
        script.say(format!("new {told}{sizes}"));
        let calls = 3 + random.below(20);
        for _ in 0..calls {
            script.say(any_line(random));
            if random.below(3) == 0 {
                script.say("counts");
            }
            if random.below(4) == 0 {
                script.say(format!("sum {}", TABLES[random.below(7)]));
            }
        }
        TABLES.iter().for_each(|table| _ = script.say(format!("sum {table}")));
        script.say("stack_depth");
        script.say("check_here");
        script.say("check_here strict");
    }
    script
}

/// A number, often small, sometimes at the edge of its width.
fn number(random: &mut Random, bits: u32) -> u64 {
    let most = u64::MAX >> (64 - bits);
    match random.below(10) {
        0 => most,
        1 => most - 1,
        2 => random.next() & most,
        3 => (random.next() & most) >> random.below(bits as usize),
        4 => {
            [
                65_535,
                65_536,
                4_294_967_295,
                4_294_967_296,
                1_048_576,
                1_048_577,
                255,
                256,
            ][random.below(8)]
                & most
        }
        _ => random.below(5) as u64,
    }
}

fn any_line(random: &mut Random) -> String {
    let table = TABLES[random.below(7)];
    let op = match random.below(4) {
        0 => [88, 89, 90, 91, 92, 94][random.below(6)],
        1 => [5, 0, 105, 101, 6][random.below(5)],
        _ => random.below(133) as u64,
    };
    let row = match random.below(8) {
        0 => "dead".to_owned(),
        _ => number(random, 64).to_string(),
    };
    let mut b = |bits| number(random, bits);
    let (byte, word, wide, long) = (b(8), b(16), b(32), b(64));
    let (other, last) = (b(8), b(64));
    match random.below(34) {
        0 => format!("set_location {wide} {word}"),
        1 => format!("set_location {wide} {word} {byte} {wide}"),
        2..=4 => format!("emit {op}"),
        5 => format!("emit_u8 {op} {byte}"),
        6 => format!("emit_u16 {op} {word}"),
        7 => format!("emit_u16_u8 {op} {word} {byte}"),
        8 => format!("emit_call_function_kw {byte}{}", " 1".repeat(random.below(5))),
        9 | 10 => format!("emit_jump {op}"),
        11 | 12 => format!("patch_jump {row}"),
        13 | 14 => format!("emit_jump_to {op} {row}"),
        15 => "current_jump_target".to_owned(),
        16 => format!("register_local_names{}", " 4".repeat(random.below(4))),
        17 => format!("register_local_name {} {wide}", random.below(7)),
        18 => format!("emit_name_op {op} {word} {wide} {byte}"),
        19 => format!("add_const {long}"),
        20 => format!("add_exception_entry {long} {wide} {last} {word} {other} 1"),
        21 => format!("new_code_region {word}"),
        22 => format!("build {wide}"),
        23..=25 => format!(
            "tamper {table} {}",
            if random.below(3) == 0 {
                long
            } else {
                random.below(6) as u64
            }
        ),
        26 => "tamper depth dead".to_owned(),
        27 => format!("tamper depth {}", random.below(4)),
        28 | 29 => format!("poke marks {} {}", random.below(14), random.below(6)),
        30 => format!("poke {table} {} {long}", random.below(8)),
        31 => format!("location_for_offset {long}"),
        32 => format!("find_exception_handler {wide}"),
        _ => format!("{} {long}", ["constant", "local_name"][random.below(2)]),
    }
}

/// Lines a letter away from right ones, and lines of any bytes.
pub fn noise(random: &mut Random, lines: usize) -> Script {
    let mut script = Script::default();
    script.say("new live 3 60 60 60 9 9 60 8");
    while script.lines < lines {
        let mut line = any_line(random).into_bytes();
        match random.below(12) {
            0 => {
                let at = random.below(line.len());
                line[at] = random.u8();
            }
            1 => _ = line.remove(random.below(line.len())),
            2 => line.insert(random.below(line.len() + 1), b" 0-9a\t\r\0z#~\x7f"[random.below(12)]),
            3 => line.truncate(random.below(line.len())),
            4 => line.extend(b" 1"),
            5 => line.extend(b" "),
            6 => line.insert(0, b' '),
            7 => line.extend(vec![b'1'; [1, 25, 200, 8_192, 9_000][random.below(5)]]),
            8 => line = (0..random.below(30)).map(|_| random.u8()).collect(),
            9 => line.insert(0, b'#'),
            10 => line = given(random).into_bytes(),
            _ => {}
        }
        line.retain(|&byte| byte != b'\n');
        script.say(line);
    }
    script
}

/// The lookup over two records, with offsets at, before and behind their ends.
pub fn records(random: &mut Random, lines: usize) -> Script {
    let mut script = Script::default();
    while script.lines < lines {
        let mut entry = || {
            let numbers = [32, 32, 32, 16, 16].map(|bits| number(random, bits));
            (numbers, random.below(2))
        };
        let (first, second) = (entry(), entry());
        let near = [first.0[0], first.0[1], second.0[0], second.0[1]][random.below(4)];
        let offset = (near + random.below(3) as u64).saturating_sub(1).min(u32::MAX.into());
        let words = |(numbers, kind): ([u64; 5], usize)| {
            numbers.iter().map(|number| format!(" {number}")).collect::<String>() + &format!(" {kind}")
        };
        script.say(format!("find_in_two {offset}{}{}", words(first), words(second)));
    }
    script
}

/// A listing of up to two instructions, good or not, in hexadecimal.
fn listing(random: &mut Random) -> String {
    let lines = ["0\tPop\t-\t-\n", "1\tPop\t-\t-\n", "0\tJump\t-3\t0\n", "0\tpop\t-\t-\n"];
    let mut line = || lines[random.below(lines.len())];
    let text = ["offset\tname\toperands\ttarget\n", line(), line()].concat();
    let length = if random.below(2) == 0 {
        text.len()
    } else {
        1 + random.below(text.len())
    };
    text[..length].bytes().map(|byte| format!("{byte:02x}")).collect()
}

/// Lines on bytes, with numbers at the edges of what they take.
fn given(random: &mut Random) -> String {
    let hex: String = (0..random.below(12))
        .map(|_| format!("{:02x}", random.below(133)))
        .collect();
    let hex = if hex.is_empty() { "-".to_owned() } else { hex };
    let (a, b) = (random.below(5), random.below(3));
    match random.below(12) {
        0 => format!("step {hex} {a}"),
        1 => format!("check {hex} {a} {b}"),
        2 => format!("check strict {hex} 0 0 {a}"),
        3 => format!("check_slice {} {} {hex} 0 {b}", random.below(16), random.below(16)),
        4 => {
            let [bytes, cells, work] = [(); 3].map(|()| random.below(9));
            format!("check_zeros {bytes} {cells} {work}")
        }
        5 => format!(
            "effect {} {} {} 0 0 0",
            random.below(132),
            random.below(13),
            number(random, 17)
        ),
        6 => format!(
            "effect {} {} -{} 0 0 0",
            random.below(132),
            random.below(13),
            number(random, 16)
        ),
        7 => format!("cells {} {a} {}", TABLES[random.below(7)], a + random.below(9)),
        8 => format!("read_listing {b} {}", listing(random)),
        9 => format!("fnv1a {hex}"),
        10 => "fingerprint".to_owned(),
        _ => {
            let first = format!("{a} {} 30 1 2 0", number(random, 32));
            format!(
                "find_in_two {} {first} 0 {} 40 3 4 1",
                number(random, 32),
                number(random, 32)
            )
        }
    }
}
