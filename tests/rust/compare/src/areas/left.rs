//! What a refused call leaves behind: the differences that docs/DIFFERENCES.md lists. The Rust is run past its error, and
//! has to hold what is said there; the program has to hold what it held before.

use crate::{
    Plan,
    original::{Left, Sequence},
    script::{
        self, Refusals, Script,
        parse::{Line, parse},
    },
    tally::{Expected, Tally},
};

/// A sequence whose last call is refused, and what the Rust holds then.
struct Case {
    lines: Vec<String>,
    rust: Left,
}

pub fn run(tally: &mut Tally, _: &mut Plan) {
    let program = script::replay();
    for Case { lines, rust } in cases() {
        let mut sequence = Sequence::default();
        let calls = lines.iter().map(|line| match parse(line.as_bytes()) {
            Line::Call(call) => call,
            _ => panic!("{line} is a call"),
        });
        let calls: Vec<_> = calls.collect();
        let (last, before) = calls.split_last().expect("a case has lines");
        before.iter().for_each(|call| _ = sequence.answer(call));
        let left = sequence.left(last);
        tally.compare(&left, Expected::by_rust(&rust), || {
            format!("the Rust after {}", lines.join("; "))
        });
        unchanged(&lines).run(tally, &mut Refusals::default(), &program, "left behind");
    }
}

/// The lines with a look at everything before and after the last.
fn unchanged(lines: &[String]) -> Script {
    let mut script = Script::default();
    let look = |script: &mut Script| {
        let mut seen = vec![script.say("counts"), script.say("stack_depth")];
        seen.extend(script::parse::TABLES.map(|table| script.say(format!("sum {table}"))));
        seen
    };
    let (last, before) = lines.split_last().expect("a case has lines");
    before.iter().for_each(|line| _ = script.say(line));
    let held = look(&mut script);
    script.say(last);
    assert_eq!(look(&mut script), held, "the text keeps all after a refusal");
    script
}

fn cases() -> Vec<Case> {
    let case = |lines: &[&str], refusal: u32, code: &[u64], location_rows: usize, depth: Option<u16>| Case {
        lines: lines.iter().map(|&line| line.to_owned()).collect(),
        rust: Left {
            refusal,
            code: code.to_vec(),
            location_rows,
            depth,
        },
    };
    let names = " 9".repeat(256);
    let function_kw = format!("emit_call_function_kw 1{names}");
    let attr_kw = format!("emit_call_attr_kw 5 1{names}");
    let full = "new live 65535 60 60 0 2 0 8 4";
    let room = "new live 3 60 60 0 2 0 8 4";
    let mut cases = vec![
        // The fall-through 5: the whole instruction and its location row.
        case(&[full, "emit 5"], 5, &[5], 0, Some(65_535)),
        case(&[full, "set_location 1 2", "emit 5"], 5, &[5], 1, Some(65_535)),
        case(
            &[full, "set_location 1 2", "emit_u16 4 258"],
            5,
            &[4, 2, 1],
            1,
            Some(65_535),
        ),
        case(
            &[full, "set_location 1 2", "emit_jump 94"],
            5,
            &[94, 0, 0],
            1,
            Some(65_535),
        ),
        // 7: the opcode and its location row.
        case(&[room, "set_location 1 2", &function_kw], 7, &[83], 1, Some(3)),
        case(&[room, "set_location 1 2", &attr_kw], 7, &[85], 1, Some(3)),
        // Nothing: the taken 4, 8.
        case(
            &["new live 0 60 60 0 2 0 8 4", "set_location 1 2", "emit_jump 94"],
            4,
            &[],
            0,
            Some(0),
        ),
        case(
            &[room, "set_location 1 2", "emit_raise_unbound_local 65536"],
            8,
            &[],
            0,
            Some(3),
        ),
    ];
    cases.push(far_back());
    cases.push(far_ahead());
    cases.push(constants());
    cases
}

/// Nothing is left after 6 in `emit_jump_to`.
fn far_back() -> Case {
    let mut lines = vec![
        "new live 0 40000 0 0 0 0 8 4".to_owned(),
        "current_jump_target".to_owned(),
    ];
    lines.extend(std::iter::repeat_n("emit 105".to_owned(), 32_766));
    lines.push("emit_jump_to 88 0".to_owned());
    Case {
        lines,
        rust: Left {
            refusal: 6,
            code: vec![105; 32_766],
            location_rows: 0,
            depth: Some(0),
        },
    }
}

/// After 6 in `patch_jump` on dead code the Rust is live at the label's depth.
fn far_ahead() -> Case {
    let mut lines = vec![
        "new live 2 40000 0 0 0 0 8 4".to_owned(),
        "emit_jump 88".to_owned(),
        "new_code_region 1".to_owned(),
    ];
    lines.extend(std::iter::repeat_n("emit 105".to_owned(), 32_767));
    lines.push("emit 101".to_owned());
    lines.push("patch_jump 0".to_owned());
    let code = [vec![88, 0, 0], vec![105; 32_767], vec![101]].concat();
    Case {
        lines,
        rust: Left {
            refusal: 6,
            code,
            location_rows: 0,
            depth: Some(2),
        },
    }
}

/// Nothing is left after 9.
fn constants() -> Case {
    let mut lines = vec!["new live 0 0 0 0 65540 0 0 2".to_owned()];
    lines.extend(std::iter::repeat_n("add_const 1".to_owned(), 65_536));
    lines.push("add_const 1".to_owned());
    Case {
        lines,
        rust: Left {
            refusal: 9,
            code: vec![],
            location_rows: 0,
            depth: Some(0),
        },
    }
}
