//! The program `listing`, run on files of bytes and held against a printer that was written for this from the rules'
//! text: every opcode with edge operands, keyword calls, jumps, faults, random and damaged bytes of many lengths.

use std::{
    env,
    fmt::Write as _,
    fs::{self, File},
    path::PathBuf,
    process,
};

use crate::{
    Plan, original,
    random::Random,
    reference::{self, Decoder, Step},
    script,
    tally::{Expected, Tally},
};

/// The most bytes that are listed.
const MOST: usize = 65_536;

pub fn run(tally: &mut Tally, plan: &mut Plan) {
    let program = script::listing();
    let folder = env::temp_dir().join(format!("tokenfinch-listing-{}", process::id()));
    fs::create_dir_all(&folder).expect("a folder for the inputs");
    let run = Run {
        program,
        file: folder.join("code"),
        decoder: Decoder::new(),
    };
    for (what, code) in cases(plan, &run.decoder) {
        run.one(tally, &what, &code);
    }
    fs::remove_dir_all(&folder).expect("the folder is removed");
}

struct Run {
    program: PathBuf,
    file: PathBuf,
    decoder: Decoder,
}

impl Run {
    fn one(&self, tally: &mut Tally, what: &str, code: &[u8]) {
        fs::write(&self.file, code).expect("the input is written");
        let stdin = File::open(&self.file).expect("the input is there");
        let output = script::command(&self.program)
            .stdin(stdin)
            .output()
            .expect("the program runs");
        let printed = String::from_utf8(output.stdout).expect("a listing is ASCII");
        let said = output.status.success() && output.stderr.is_empty();
        tally.compare(
            (said, printed),
            Expected::by_text((true, listing(&self.decoder, code))),
            || format!("{what}, {} bytes: {:?}", code.len(), &code[..code.len().min(60)]),
        );
    }
}

/// The whole listing of some bytes.
pub(super) fn listing(decoder: &Decoder, code: &[u8]) -> String {
    if code.len() > MOST {
        return "!\t0\t10\n".to_owned();
    }
    let mut text = "offset\tname\toperands\ttarget\n".to_owned();
    let mut at = 0;
    loop {
        match decoder.step(code, at) {
            Step::Instruction(cells) => {
                line(&mut text, code, at, &cells);
                at += cells[1] as usize;
            }
            Step::End => return text,
            Step::Refused(number) => {
                writeln!(text, "!\t{at}\t{number}").expect("a string takes all");
                return text;
            }
        }
    }
}

/// A line, from the step's eight numbers: opcode, size, shape, three values, count and place of the names.
fn line(text: &mut String, code: &[u8], at: usize, cells: &[u64; 8]) {
    let name = original::opcode(cells[0] as u8).expect("the step knows the opcode");
    let operands = reference::operands(code, cells);
    let target = if cells[2] == 4 {
        (at as i64 + 3 + operands[0]).to_string()
    } else {
        "-".to_owned()
    };
    let operands: Vec<String> = operands.iter().map(i64::to_string).collect();
    let operands = if operands.is_empty() {
        "-".to_owned()
    } else {
        operands.join(",")
    };
    writeln!(text, "{at}\t{name:?}\t{operands}\t{target}").expect("a string takes all");
}

fn cases(plan: &mut Plan, decoder: &Decoder) -> Vec<(String, Vec<u8>)> {
    let mut cases: Vec<(String, Vec<u8>)> = vec![
        ("nothing".into(), vec![]),
        (
            "the document's example".into(),
            vec![0x06, 0x5a, 0x03, 0x00, 0x08, 0x07, 0x00, 0x05, 0x65],
        ),
        ("no opcode".into(), vec![5, 131, 5]),
        ("cut short".into(), vec![5, 88, 1]),
        ("jump to before the code".into(), vec![88, 0, 128, 5]),
    ];
    for edge in [0x00, 0x01, 0x7f, 0x80, 0xff] {
        let every: Vec<u8> = (0..=130).flat_map(|opcode| edged(decoder, opcode, edge)).collect();
        cases.push((format!("every opcode, operand bytes {edge}"), every));
    }
    for n in [0_u8, 1, 255] {
        let names: Vec<u8> = (0..2 * usize::from(n)).map(|_| plan.random.u8()).collect();
        cases.push((format!("CallFunctionKw, {n} names"), [&[83, 7, n][..], &names].concat()));
        cases.push((
            format!("CallAttrKw, {n} names"),
            [&[85, 1, 2, 9, n][..], &names].concat(),
        ));
        cases.push((
            format!("CallAttrKw, {n} names, cut"),
            [&[85, 1, 2, 9, n][..], &names].concat()[..4].to_vec(),
        ));
    }
    for length in [1, 2, 3, 100, 4_095, 4_096, 65_535, 65_536, 65_537, 70_000] {
        cases.push(("one opcode over and over".into(), vec![105; length]));
        cases.push((
            "random whole instructions".into(),
            whole(decoder, &mut plan.random, length),
        ));
        cases.push(("random, cut to the length".into(), random(&mut plan.random, length)));
    }
    for _ in 0..plan.amount(1_500, 60) {
        let length = plan.random.below(300);
        cases.push(("random".into(), random(&mut plan.random, length)));
        let mut code = whole(decoder, &mut plan.random, 200);
        if !code.is_empty() {
            let place = plan.random.below(code.len());
            code[place] = plan.random.u8();
        }
        cases.push(("damaged".into(), code));
    }
    cases
}

/// Where a keyword call has its count of names.
fn count_of_names_at(opcode: u8) -> Option<usize> {
    match opcode {
        83 => Some(2),
        85 => Some(4),
        _ => None,
    }
}

/// An opcode with all operand bytes alike, whole; a keyword call with no names.
pub(super) fn edged(decoder: &Decoder, opcode: u8, edge: u8) -> Vec<u8> {
    let mut bytes = vec![edge; 520];
    bytes[0] = opcode;
    if let Some(place) = count_of_names_at(opcode) {
        bytes[place] = 0;
    }
    let Step::Instruction(cells) = decoder.step(&bytes, 0) else {
        panic!("opcode {opcode} is known");
    };
    bytes.truncate(cells[1] as usize);
    bytes
}

/// Any bytes, mostly opcodes.
fn random(random: &mut Random, length: usize) -> Vec<u8> {
    (0..length).map(|_| random.u8() % 133).collect()
}

/// Whole random instructions, no more than so many bytes.
pub(super) fn whole(decoder: &Decoder, random: &mut Random, most: usize) -> Vec<u8> {
    let mut code = Vec::new();
    loop {
        let mut bytes: Vec<u8> = (0..16).map(|_| random.u8()).collect();
        let n = random.below(4) as u8;
        bytes[0] %= 131;
        if let Some(place) = count_of_names_at(bytes[0]) {
            bytes[place] = n;
        }
        let Step::Instruction(cells) = decoder.step(&bytes, 0) else {
            panic!("{} is an opcode", bytes[0]);
        };
        if code.len() + cells[1] as usize > most {
            return code;
        }
        code.extend(&bytes[..cells[1] as usize]);
    }
}
