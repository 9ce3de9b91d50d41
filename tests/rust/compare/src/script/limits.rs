//! Scripts that walk up to the limits and one step past them.

use monty::bytecode::op::Opcode::*;

use super::{
    Script,
    parse::{BYTES_MOST, LINE_MOST, TABLES},
};

/// Tables with room for everything but code.
const ROOM: &str = "60 60 4 40 40 8";

pub fn limits() -> Vec<(&'static str, Script)> {
    vec![
        ("far jumps", far_jumps()),
        ("depths at their ends", depths()),
        ("jumps that find no value", jumps_without_a_value()),
        ("keyword names", keyword_names()),
        ("constants", constants()),
        ("full tables", full_tables()),
        ("code at its limit", long_code()),
        ("wide numbers", wide_numbers()),
        ("every opcode by every call", every_call()),
        ("lines at their limit", long_lines()),
        ("tables at their limits", large_tables()),
    ]
}

fn nops(script: &mut Script, count: usize) {
    for _ in 0..count {
        script.say(format!("emit {}", Nop as u8));
    }
}

fn seen(script: &mut Script) {
    script.say("counts");
    script.say("build 0");
    script.say("check_here");
    for table in TABLES {
        script.say(format!("sum {table}"));
    }
}

/// Labels and targets at the greatest and the first too great displacement, both ways.
fn far_jumps() -> Script {
    let mut script = Script::default();
    for way in [32_767, 32_768] {
        script.say(format!("new live 0 40000 {ROOM}"));
        script.say(format!("emit_jump {}", Jump as u8));
        script.say("new_code_region 0");
        nops(&mut script, way);
        script.say("patch_jump 0");
        seen(&mut script);
        // In dead code the Rust is live after a refusal, the port is not.
        script.say(format!("new live 0 40000 {ROOM}"));
        script.say(format!("emit_jump {}", Jump as u8));
        script.say("new_code_region 0");
        nops(&mut script, way - 1);
        script.say(format!("emit {}", LoadNone as u8));
        script.say(format!("emit {}", ReturnValue as u8));
        script.say("patch_jump 0");
        script.say("stack_depth");
        seen(&mut script);
    }
    for way in [32_764, 32_765, 32_766] {
        script.say(format!("new live 0 40000 {ROOM}"));
        script.say("current_jump_target");
        nops(&mut script, way);
        script.say(format!("emit_jump_to {} 0", Jump as u8));
        seen(&mut script);
    }
    script
}

fn depths() -> Script {
    let mut script = Script::default();
    let jumps = [
        Jump,
        JumpIfTrue,
        JumpIfFalse,
        JumpIfTrueOrPop,
        JumpIfFalseOrPop,
        ForIter,
    ];
    for depth in [0, 1, 2, 65_534, 65_535] {
        for op in 0..=131 {
            script.say(format!("new live {depth} 40 {ROOM}"));
            script.say(format!("emit {op}"));
            seen(&mut script);
        }
        for op in jumps {
            script.say(format!("new live {depth} 40 {ROOM}"));
            script.say(format!("emit_jump {}", op as u8));
            script.say("stack_depth");
            script.say("cells marks 0 4");
            script.say("patch_jump 0");
            seen(&mut script);
            script.say(format!("new live {depth} 40 {ROOM}"));
            script.say("current_jump_target");
            script.say(format!("emit_jump_to {} 0", op as u8));
            seen(&mut script);
        }
        for count in [0, 1, 2, 254, 255, 256, 65_534, 65_535] {
            for op in [BuildList, BuildTuple, BuildSet, BuildDict, BuildFString] {
                script.say(format!("new live {depth} 40 {ROOM}"));
                script.say(format!("emit_u16 {} {count}", op as u8));
                script.say("stack_depth");
            }
            script.say(format!("new live {depth} 40 {ROOM}"));
            script.say(format!("emit_u8 {} {}", UnpackSequence as u8, count % 256));
            script.say("stack_depth");
        }
    }
    script
}

/// Where the taken depth stands in the order: every opcode as a jump at the depths 0 and 1, in dead code and at a tampered
/// depth, to a target of its own depth and of another, to Dead, to no row, to a label's row, too far, and without room.
fn jumps_without_a_value() -> Script {
    let deeper = format!("emit {}", LoadNone as u8);
    let flatter = format!("emit {}", Pop as u8);
    let label = format!("emit_jump {}", JumpIfTrueOrPop as u8);
    let before: [&[&str]; 9] = [
        &[],
        &["current_jump_target"],
        &["current_jump_target", &deeper],
        &["current_jump_target", &flatter],
        &[&deeper, &label],
        &["current_jump_target", "tamper code 33000"],
        &["current_jump_target", "tamper depth 0"],
        &["current_jump_target", "tamper depth 1"],
        &["current_jump_target", "tamper marks 41"],
    ];
    let mut script = Script::default();
    for op in 0..=131 {
        let calls = ["", "_to"].map(|call| format!("emit_jump{call} {op}"));
        let [made, to] = &calls;
        for call in [made, &format!("{to} 0"), &format!("{to} 7"), &format!("{to} dead")] {
            for told in ["live 0", "live 1", "dead"] {
                for room in [40_000, 2] {
                    for lines in before {
                        script.say(format!("new {told} {room} {ROOM}"));
                        lines.iter().for_each(|line| _ = script.say(line));
                        script.say(call);
                        script.say("stack_depth");
                        script.say("counts");
                    }
                }
            }
        }
    }
    script
}

fn keyword_names() -> Script {
    let mut script = Script::default();
    for count in [0, 1, 254, 255, 256, 300, 301] {
        let names: String = (0..count).map(|i| format!(" {}", i * 211 % 65_536)).collect();
        for told in ["live 600", "dead"] {
            for call in ["emit_call_function_kw 3", "emit_call_attr_kw 258 3"] {
                script.say(format!("new {told} 1000 {ROOM}"));
                script.say("set_location 1 2");
                script.say(format!("{call}{names}"));
                seen(&mut script);
            }
        }
        let names: String = (0..count).map(|i| format!(" {}", i * 91_193)).collect();
        script.say("new dead 0 0 0 0 300 0 0");
        script.say(format!("register_local_names{names}"));
        seen(&mut script);
    }
    script
}

fn constants() -> Script {
    let mut script = Script::default();
    script.say("new live 0 9 0 0 65540 0 0 2");
    for value in 0..65_538_u64 {
        script.say(format!("add_const {}", value * 281_474_976_710));
    }
    for index in [0, 1, 65_535, 65_536, u64::MAX] {
        script.say(format!("constant {index}"));
    }
    seen(&mut script);
    script
}

/// Every call that stores, with room for one row more and with none.
fn full_tables() -> Script {
    let mut script = Script::default();
    let calls = [
        "emit 5",
        "emit_u16 4 1",
        "emit_jump 88",
        "emit_jump_to 88 0",
        "current_jump_target",
        "register_local_names 1 2",
        "register_local_name 1 5",
        "add_const 9",
        "add_exception_entry 1 2 3 4 5 1",
        "new_code_region 7",
        "patch_jump 0",
        "build 4",
    ];
    for tables in [
        "3 6 6 1 2 4 2",
        "3 5 5 0 1 3 3",
        "2 6 6 1 2 4 2",
        "4 12 12 2 3 8 4",
        "6 18 0 0 0 7 0",
        "0 0 0 0 0 0 0",
    ] {
        for told in ["dead", "live 1"] {
            for location in ["", "set_location 4294967295 0", "set_location 1 2 3 4"] {
                for first in calls {
                    script.say(format!("new {told} {tables}"));
                    script.say(location);
                    script.say(first);
                    calls.iter().for_each(|call| _ = script.say(call));
                    script.say("tamper depth 1");
                    calls.iter().for_each(|call| _ = script.say(call));
                    seen(&mut script);
                }
            }
        }
    }
    script
}

/// The code's own limit lies below the lent bytes: reached by the longest instructions, and by a count.
fn long_code() -> Script {
    let mut script = Script::default();
    let names = " 513".repeat(255);
    script.say("new live 65535 1048640 0 0 0 0 0 2");
    for _ in 0..2_044 {
        script.say(format!("emit_call_function_kw 0{names}"));
        script.say("tamper depth 65535");
    }
    for _ in 0..8 {
        script.say("current_offset");
        script.say(format!("emit_u16 {} 258", LoadConst as u8));
        script.say("tamper depth 65000");
    }
    seen(&mut script);
    for count in [1_048_570_u64, 1_048_575, 1_048_576, 1_048_577, u64::MAX] {
        script.say(format!("tamper code {count}"));
        for call in [
            "emit 5",
            "emit_jump 88",
            "new_code_region 1",
            "current_jump_target",
            "build 0",
            "add_const 1",
        ] {
            script.say(call);
        }
        script.say("counts");
    }
    script
}

fn wide_numbers() -> Script {
    let mut script = Script::default();
    script.say(format!("new live 9 99 {ROOM}"));
    for name in [0, 65_535, 65_536, u32::MAX] {
        script.say(format!("new live 9 99 {ROOM}"));
        for call in [
            format!("emit_load_global_callable 65535 {name}"),
            format!("emit_name_op {} 65535 {name} 255", LoadName as u8),
            format!("emit_name_op 5 1 {name} 0"),
            format!("emit_raise_unbound_local {name}"),
            format!("emit_raise_unbound_local {name}"),
            format!("register_local_name 2 {name}"),
        ] {
            script.say(call);
        }
        seen(&mut script);
    }
    for offset in [0, 69_999, 4_294_967_295_u64, 4_294_967_296, u64::MAX] {
        script.say(format!("new live 9 99 {ROOM}"));
        for row in [
            format!("{offset} 2 3"),
            format!("1 {offset} 3"),
            format!("1 2 {offset}"),
        ] {
            script.say(format!("add_exception_entry {row} 65535 65535 1"));
        }
        script.say(format!("location_for_offset {offset}"));
        seen(&mut script);
    }
    for slot in [0, 3, 4, 255, 256, 65_535] {
        script.say(format!("new live 9 99 60 60 4 65540 40 8"));
        for call in ["emit_load_local", "emit_store_local", "local_name"] {
            script.say(format!("{call} {slot}"));
        }
        script.say(format!("register_local_name {slot} 77"));
        script.say(format!("register_local_name {slot} 78"));
        script.say(format!("local_name {slot}"));
        seen(&mut script);
    }
    script
}

fn every_call() -> Script {
    let mut script = Script::default();
    for op in 0..=255 {
        for call in [
            "emit",
            "emit_u8",
            "emit_i8",
            "emit_u16",
            "emit_u8_u8",
            "emit_u16_u8",
            "emit_u16_u16",
            "emit_u16_u8_u8",
        ] {
            let values = match call {
                "emit" => "",
                "emit_u8" | "emit_u16" => " 2",
                "emit_i8" => " -2",
                "emit_u16_u8_u8" => " 3 2 1",
                _ => " 3 2",
            };
            for told in ["live 300", "dead"] {
                script.say(format!("new {told} 40 {ROOM}"));
                script.say(format!("{call} {op}{values}"));
                script.say("counts");
                script.say("sum code");
            }
        }
        for line in ["shape", "taken", "dead_maker", "decode_assert_flags", "emit_jump"] {
            script.say(format!("{line} {op}"));
        }
        for shape in 0..12 {
            script.say(format!("effect {op} {shape} 1 1 1 1"));
            script.say(format!("effect {op} {shape} 1 1 1 0"));
            script.say(format!("effect {op} {shape} 1 1 0 0"));
            script.say(format!("effect {op} {shape} 1 1 0 1"));
            script.say(format!("effect {op} {shape} 1 0 0 0"));
            script.say(format!("effect {op} {shape} -1 0 0 0"));
            script.say(format!("effect {op} {shape} 200 0 0 9"));
            script.say(format!("effect {op} {shape} 0 0 0 0"));
        }
    }
    script
}

/// The longest lines and bytes, and what is one too long.
fn long_lines() -> Script {
    let mut script = Script::default();
    for length in [LINE_MOST - 1, LINE_MOST, LINE_MOST + 1, 3 * LINE_MOST] {
        for first in ["#", "7"] {
            script.say(first.repeat(length));
            script.say("shape 5");
        }
    }
    let starts = (LINE_MOST - "check 05".len()) / " 0 0".len();
    for count in [starts, starts + 1] {
        script.say(format!("check 05{}", " 0 0".repeat(count)));
    }
    for bytes in [BYTES_MOST, BYTES_MOST + 1] {
        script.say(format!("step {} {}", "69".repeat(bytes), BYTES_MOST - 1));
    }
    script
}

/// Tables of the greatest lengths, each one cell longer, and the checker over all that the code's table holds.
fn large_tables() -> Script {
    let mut script = Script::default();
    let most = [1_048_640, 65_600, 65_600, 65_600, 65_600, 65_600, 65_600];
    let sizes = |longer: Option<usize>| -> String {
        let size = |(table, cells): (usize, &usize)| format!(" {}", cells + usize::from(longer == Some(table)));
        most.iter().enumerate().map(size).collect()
    };
    script.say(format!("new live 0{}", sizes(None)));
    seen(&mut script);
    for table in 0..7 {
        script.say(format!("new live 0{}", sizes(Some(table))));
        script.say(format!("new dead{}", sizes(Some(table))));
    }
    for (table, rows) in TABLES
        .iter()
        .zip([1_048_640, 10_933, 10_933, 65_600, 65_600, 16_400, 32_800])
    {
        for count in [rows, rows + 1] {
            script.say(format!("tamper {table} {count}"));
            for line in [
                "check_here",
                "location_for_offset 9",
                "find_exception_handler 9",
                "constant 65599",
                "local_name 65599",
            ] {
                script.say(line);
            }
        }
        script.say(format!("tamper {table} 0"));
    }
    for count in [131_071, 131_072, 1_048_576, 1_048_577] {
        script.say(format!("tamper code {count}"));
        script.say("check_here");
    }
    script
}
