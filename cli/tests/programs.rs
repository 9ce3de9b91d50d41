//! The programs as they are run: what they print, on which stream, and their exit status.

use std::{
    env, fs,
    io::{BufRead as _, BufReader, Write as _},
    path::{Path, PathBuf},
    process::{Child, Command, Output, Stdio},
    thread,
    time::Duration,
};

/// A file of the repository.
fn repository(path: &str) -> PathBuf {
    Path::new(env!("CARGO_MANIFEST_DIR")).join("..").join(path)
}

/// A program, by the emulator that runs this test where there is one (tools/x86).
fn command(program: &str) -> Command {
    match env::var_os("CARGO_TARGET_X86_64_UNKNOWN_LINUX_GNU_RUNNER") {
        Some(emulator) => {
            let mut command = Command::new(&emulator);
            command.arg(program).env("TOKENFINCH_RUNNER", emulator);
            command
        }
        None => Command::new(program),
    }
}

/// Runs a program with words, on an input.
fn run(program: &str, words: &[&str], input: &[u8]) -> Output {
    let mut child = command(program)
        .args(words)
        .stdin(Stdio::piped())
        .stdout(Stdio::piped())
        .stderr(Stdio::piped())
        .spawn()
        .expect("the program starts");
    let mut stdin = child.stdin.take().expect("its input is a pipe");
    thread::scope(|scope| {
        // A program that stops reading closes its end, which is no fault of the test.
        scope.spawn(move || _ = stdin.write_all(input));
        child.wait_with_output().expect("the program ends")
    })
}

fn rules(words: &[&str], input: &[u8]) -> Output {
    run(env!("CARGO_BIN_EXE_rules"), words, input)
}

fn text(bytes: &[u8]) -> &str {
    std::str::from_utf8(bytes).expect("it is text")
}

#[test]
fn the_stored_script_has_its_stored_answers() {
    let script = fs::read(repository("cli/tests/replay/script")).expect("the script is there");
    let answers = fs::read(repository("cli/tests/replay/answers")).expect("the answers are there");
    for output in [
        run(env!("CARGO_BIN_EXE_replay"), &[], &script),
        rules(&["replay"], &script),
    ] {
        assert!(output.status.success() && output.stderr.is_empty());
        for (line, (said, wanted)) in text(&output.stdout).lines().zip(text(&answers).lines()).enumerate() {
            assert_eq!(said, wanted, "answer {}", line + 1);
        }
        assert_eq!(output.stdout, answers);
    }
}

#[test]
fn checks_of_the_examples() {
    for (rule, status) in [("nine-bytes", 0), ("brake", 0), ("keyword-calls", 1)] {
        let file = repository(&format!("examples/{rule}.rule"));
        let wanted = fs::read(repository(&format!("tests/c/expected/check-{rule}.txt"))).expect("it is stored");
        let output = rules(&["check", file.to_str().expect("a plain path"), "0:0"], b"");
        assert_eq!(text(&output.stdout), text(&wanted));
        assert_eq!(output.status.code(), Some(status));
        assert!(output.stderr.is_empty());
        let code = fs::read(file).expect("the rule is there");
        assert_eq!(rules(&["check", "-"], &code).stdout, wanted);
    }
}

#[test]
fn why_there_are_no_depths() {
    let broken = fs::read(repository("examples/brake-broken.rule")).expect("the rule is there");
    for (code, starts, said) in [
        (
            &broken[..],
            "0:0",
            "23 at offset 14: two ways meet here with different depths: 1 from offset 11 (LoadConst), and 2 from offset 8 (Jump)",
        ),
        (
            &[5, 0, 23],
            "0:0",
            "23 at offset 2: BinaryAdd needs at least 1 value on the stack; it has none here",
        ),
        (
            &[5],
            "0:65535",
            "23 at offset 0: LoadNone adds 1 value to the stack; it has 65535 here, and 65,535 is the most",
        ),
        (
            &[88, 9, 0],
            "0:0",
            "23 at offset 0: Jump leads to 12, where no instruction starts",
        ),
        (
            &[5],
            "7:0",
            "20: the start 7:0 is at no instruction and not at the end, 1",
        ),
    ] {
        let output = rules(&["check", "-", starts], code);
        assert_eq!(text(&output.stdout), format!("refused {said}\n"));
        assert_eq!((output.status.code(), output.stderr), (Some(1), vec![]));
    }
}

#[test]
fn a_strict_check_asks_for_what_is_needed() {
    let file = repository("examples/brake-short.rule");
    let file = file.to_str().expect("a plain path");
    let old = rules(&["check", file], b"");
    assert_eq!((old.status.code(), old.stderr), (Some(0), vec![]));
    for words in [
        &["check", "--strict", file][..],
        &["check", file, "--strict"],
        &["check", file, "0:0", "--strict"],
    ] {
        let strict = rules(words, b"");
        assert_eq!(
            text(&strict.stdout),
            "offset 13: Rot2 needs 2 values, 1 is there (26)\n"
        );
        assert_eq!((strict.status.code(), strict.stderr), (Some(1), vec![]));
    }
    // What both modes accept they print alike; and what the old one refuses the strict one does.
    for rule in ["nine-bytes", "brake", "brake-broken", "keyword-calls"] {
        let code = fs::read(repository(&format!("examples/{rule}.rule"))).expect("the rule is there");
        let [old, strict] = [&["check", "-"][..], &["check", "--strict", "-"]].map(|words| rules(words, &code));
        assert_eq!(text(&strict.stdout), text(&old.stdout), "{rule}");
        assert_eq!(strict.status, old.status, "{rule}");
    }
}

#[test]
fn what_is_compiled_can_be_checked_strictly() {
    let code = fs::read(repository("examples/brake-short.rule")).expect("the rule is there");
    let listing = tokenfinch::listing(&code);
    assert_eq!(rules(&["compile", "-"], &listing).stdout, code);
    let strict = rules(&["compile", "--strict", "-"], &listing);
    assert_eq!((strict.status.code(), strict.stdout), (Some(1), vec![]));
    assert_eq!(text(&strict.stderr), "-:7: Rot2 needs 2 values, 1 is there (26)\n");
}

/// A program that goes on until it is ended, which a failing test does too.
struct Watching(Child);

impl Drop for Watching {
    fn drop(&mut self) {
        let _ = self.0.kill();
        let _ = self.0.wait();
    }
}

#[test]
fn a_file_is_checked_again_when_it_changes() {
    let file = env::temp_dir().join(format!("tokenfinch-watch-{}", std::process::id()));
    fs::write(&file, [5, 101]).expect("the rule is written");
    let mut child = command(env!("CARGO_BIN_EXE_rules"))
        .args(["check", "--watch", file.to_str().expect("a plain path"), "0:0"])
        .stdout(Stdio::piped())
        .spawn()
        .expect("the program starts");
    let mut lines = BufReader::new(child.stdout.take().expect("its output is a pipe")).lines();
    let watching = Watching(child);
    let mut next = || {
        let line = lines.next().expect("a line comes").expect("it is text");
        let (verdict, time) = line.rsplit_once(" (").expect("the time stands last");
        let time = time.strip_suffix(" ms)").expect("in milliseconds");
        assert!(time.parse::<f64>().is_ok(), "{time}");
        verdict.to_owned()
    };
    assert_eq!(next(), "accepted, 2 instructions with a depth, stack 1");
    fs::write(&file, [5, 0, 0]).expect("the rule is changed");
    assert_eq!(
        next(),
        "refused 23 at offset 2: Pop needs at least 1 value on the stack; it has none here"
    );
    // As an editor does that puts a new file in the old one's place.
    fs::remove_file(&file).expect("the rule is removed");
    thread::sleep(Duration::from_millis(250));
    fs::write(&file, [5, 5, 0, 0]).expect("the rule is there again");
    assert_eq!(next(), "accepted, 4 instructions with a depth, stack 2");
    drop(watching);
    fs::remove_file(&file).expect("the rule is removed");
}

#[test]
fn checks_of_large_code() {
    let longest = rules(&["check", "-"], &vec![105; 1_048_576]);
    assert_eq!(longest.status.code(), Some(0));
    assert_eq!(longest.stdout.iter().filter(|&&byte| byte == b'\n').count(), 1_048_579);
    assert!(longest.stdout.ends_with(b"\n0\t1048576\tend\t-\t-\nstack 0\n"));
    let longer = rules(&["check", "-"], &vec![105; 1_048_577]);
    assert_eq!(text(&longer.stdout), "refused 10: the code is over 1,048,576 bytes\n");
    assert_eq!(longer.status.code(), Some(1));
}

#[test]
fn starts_lead_elsewhere() {
    let code = [5, 101, 0, 101];
    let output = rules(&["check", "-", "2:2", "4:7"], &code);
    assert_eq!(
        text(&output.stdout),
        "depth\toffset\tname\toperands\ttarget\n-\t0\tLoadNone\t-\t-\n-\t1\tReturnValue\t-\t-\n2\t2\tPop\t-\t-\n\
         1\t3\tReturnValue\t-\t-\n7\t4\tend\t-\t-\nstack 7\n"
    );
    let refused = rules(&["check", "-", "9:1"], &code);
    assert!(text(&refused.stdout).starts_with("refused 20: "));
    assert_eq!(refused.status.code(), Some(1));
}

#[test]
fn the_stack_is_one_number() {
    let stack = |words: &[&str], code: &[u8]| {
        let output = rules(&[&["stack"], words].concat(), code);
        (
            output.status.code(),
            [output.stdout, output.stderr].map(|bytes| text(&bytes).to_owned()),
        )
    };
    let told = |number: &str| (Some(0), [format!("{number}\n"), String::new()]);
    for (rule, number) in [("nine-bytes", "1"), ("brake", "2")] {
        let file = repository(&format!("examples/{rule}.rule"));
        assert_eq!(
            stack(&[file.to_str().expect("a plain path")], b""),
            told(number),
            "{rule}"
        );
    }
    let up_and_down = [5, 5, 0, 0];
    for (starts, number) in [
        (&[][..], "2"),
        (&["0:7"], "9"),
        (&["0:0", "4:0"], "2"),
        (&["4:65535"], "65535"),
    ] {
        assert_eq!(
            stack(&[&["-"], starts].concat(), &up_and_down),
            told(number),
            "{starts:?}"
        );
    }
    assert_eq!(stack(&["-"], b""), told("0"));
}

#[test]
fn a_refused_stack_is_told_as_a_check() {
    for rule in ["brake-broken", "keyword-calls", "cut-short"] {
        let code = fs::read(repository(&format!("examples/{rule}.rule"))).expect("the rule is there");
        let [checked, stack] = ["check", "stack"].map(|command| rules(&[command, "-"], &code));
        assert_eq!((stack.status.code(), stack.stdout), (Some(1), vec![]), "{rule}");
        assert_eq!(text(&stack.stderr), text(&checked.stdout), "{rule}");
        assert!(text(&stack.stderr).starts_with("refused 2"), "{rule}");
    }
}

#[test]
fn the_opcode_table() {
    let output = rules(&["opcodes"], b"");
    let lines: Vec<&str> = text(&output.stdout).lines().collect();
    assert_eq!(lines.len(), 132);
    assert_eq!(lines[0], "number\tname\tshape\tsize\tfalls\ttaken\tbehind");
    assert_eq!(lines[1 + 94], "94\tForIter\tOffset\t3\t1\t-1\tlive");
    assert_eq!(lines[1 + 62], "62\tBuildList\tU16\t3\toperand\t-\tlive");
    assert_eq!(lines[1 + 101], "101\tReturnValue\tNone\t1\t-1\t-\tdead");
}

#[test]
fn fingerprints_are_16_digits() {
    let said = |words: &[&str], input: &[u8]| {
        let output = rules(words, input);
        assert_eq!((output.status.code(), text(&output.stderr)), (Some(0), ""));
        text(&output.stdout).to_owned()
    };
    assert_eq!(said(&["fingerprint"], b""), "47f48e5e55da518f\n");
    assert_eq!(said(&["fingerprint", "-"], b""), "cbf29ce484222325\n");
    assert_eq!(said(&["fingerprint", "-"], b"ab"), "089c4407b545986a\n");
    let file = repository("examples/brake.rule");
    let bytes = fs::read(&file).expect("the rule is there");
    let by_name = said(&["fingerprint", file.to_str().expect("a plain path")], b"");
    assert_eq!(by_name, said(&["fingerprint", "-"], &bytes));
    assert_ne!(by_name, said(&["fingerprint", "-"], &bytes[1..]));
}

#[test]
fn what_is_no_good_is_one_line_and_status_2() {
    let folder = repository("examples");
    let folder = folder.to_str().expect("a plain path");
    for words in [
        &["nonsense"][..],
        &["listing"],
        &["listing", "a", "b"],
        &["listing", "no-such-file"],
        &["listing", folder],
        &["check"],
        &["check", "no-such-file"],
        &["check", folder],
        &["check", "-", "0"],
        &["check", "-", "0:0", "x:y"],
        &["check", "--watch"],
        &["check", "--watch", "-"],
        &["check", "--watch", "no-such-file"],
        &["check", "--watch", folder],
        &["check", "--strict"],
        &["stack"],
        &["stack", "no-such-file"],
        &["stack", folder],
        &["stack", "-", "0"],
        &["compile"],
        &["compile", "no-such-file"],
        &["compile", folder],
        &["compile", "-", "0"],
        &["compile", "-", "-o"],
        &["compile", "-", "0:0", "--unchecked"],
        &["compile", "-", "--strict", "--unchecked"],
        &["fingerprint", "no-such-file"],
        &["fingerprint", folder],
        &["fingerprint", "-", "-"],
        &["opcodes", "more"],
        &["replay", "more"],
    ] {
        let output = rules(words, b"");
        assert_eq!(output.status.code(), Some(2), "{words:?}");
        assert!(output.stdout.is_empty(), "{words:?}");
        let said = text(&output.stderr);
        assert!(
            said.starts_with("rules: ") && said.lines().count() == 1,
            "{words:?}: {said}"
        );
    }
}

#[test]
fn help_is_the_file_that_the_script_shows() {
    let wanted = fs::read(repository("cli/src/rules/help.txt")).expect("the help is there");
    for words in [&[][..], &["help"], &["--help"], &["-h"]] {
        let output = rules(words, b"");
        assert_eq!((output.status.code(), &output.stdout), (Some(0), &wanted));
    }
}

const HEADER: &str = "offset\tname\toperands\ttarget\n";

/// The listing of so many Nops.
fn nops(count: usize) -> String {
    let lines = (0..count).map(|at| format!("{at}\tNop\t-\t-\n"));
    lines.fold(HEADER.to_owned(), |text, line| text + &line)
}

/// What `compile` says of a listing that it refuses, behind the listing's name; nothing is written then.
fn refused(words: &[&str], lines: &str) -> String {
    let output = rules(
        &[&["compile", "-"], words].concat(),
        format!("{HEADER}{lines}").as_bytes(),
    );
    assert_eq!(output.status.code(), Some(1), "{lines}");
    assert!(output.stdout.is_empty());
    let said = text(&output.stderr);
    said.strip_prefix('-')
        .and_then(|said| said.strip_suffix('\n'))
        .expect("one line")
        .to_owned()
}

#[test]
fn listings_are_compiled_back() {
    for rule in ["nine-bytes", "brake", "brake-broken"] {
        let code = fs::read(repository(&format!("examples/{rule}.rule"))).expect("the rule is there");
        let compiled = rules(&["compile", "-", "--unchecked"], &tokenfinch::listing(&code));
        assert_eq!((compiled.status.code(), compiled.stdout), (Some(0), code), "{rule}");
    }
    for count in [0, 1, 65_536] {
        let compiled = rules(&["compile", "-"], nops(count).as_bytes());
        assert_eq!((compiled.status.code(), compiled.stdout), (Some(0), vec![105; count]));
    }
    let longer = rules(&["compile", "-"], nops(65_537).as_bytes());
    assert_eq!(
        text(&longer.stderr),
        "-:65538: with this line the code is over 65,536 bytes (18)\n"
    );
    assert_eq!((longer.status.code(), longer.stdout), (Some(1), vec![]));
}

/// Random bytes, up to the first fault.
fn random_code(seed: u64, length: usize) -> Vec<u8> {
    let mut state = seed.wrapping_mul(0x9E37_79B9_7F4A_7C15) | 1;
    let mut next = || {
        state ^= state << 13;
        state ^= state >> 7;
        state ^= state << 17;
        (state >> 32) as u8
    };
    let mut code: Vec<u8> = (0..length).map(|_| next() % 131).collect();
    let fault = tokenfinch::instructions(&code).find_map(|read| read.err()?.offset());
    code.truncate(fault.unwrap_or(length));
    code
}

#[test]
fn random_code_is_compiled_back() {
    for seed in 1..=24 {
        let code = random_code(seed, 150 * seed as usize);
        let compiled = rules(&["compile", "-", "--unchecked"], &tokenfinch::listing(&code));
        assert_eq!(
            (compiled.status.code(), compiled.stdout),
            (Some(0), code),
            "seed {seed}"
        );
    }
}

#[test]
fn a_refused_line_is_told() {
    for (lines, said) in [
        ("0\tPop\t-\t-\n2\tPop\t-\t-\n", ":3: the offset is 1 here, not 2 (25)"),
        (
            "123456789012345678901234567890\tPop\t-\t-\n",
            ":2: the offset is 0 here, not 123456789012345678901234567890 (25)",
        ),
        (
            "0\tJump\t0\t123456789012345678901234567890\n",
            ":2: the displacement 0 leads to 3, not 123456789012345678901234567890 (25)",
        ),
        (
            "0\tPop\t-\t-\n!\t1\t22\n",
            ":3: not a line that listing prints: it is the line of a fault, and no instruction (24)",
        ),
        (
            "0\tPop\t-\t-\r\n",
            ":2: not a line that listing prints: it ends in CR LF, and a line ends in LF alone (24)",
        ),
        (
            "0\tPop\t-\t-",
            ":2: not a line that listing prints: it is the last and has no LF at its end (24)",
        ),
        (
            "0   Pop   -   -\n",
            ":2: not a line that listing prints: spaces stand where tabs should (24)",
        ),
    ] {
        assert_eq!(refused(&["--unchecked"], lines), said);
    }
    let empty = rules(&["compile", "-"], b"");
    assert_eq!(empty.status.code(), Some(1));
    assert_eq!(
        text(&empty.stderr),
        "-:1: not a line that listing prints: the text is empty, and a listing begins with its header (24)\n"
    );
    for rule in ["cut-short", "keyword-calls"] {
        let code = fs::read(repository(&format!("examples/{rule}.rule"))).expect("the rule is there");
        let output = rules(&["compile", "-"], &tokenfinch::listing(&code));
        assert!(text(&output.stderr).ends_with("it is the line of a fault, and no instruction (24)\n"));
        assert_eq!((output.status.code(), output.stdout), (Some(1), vec![]));
    }
}

#[test]
fn what_is_compiled_is_checked() {
    let pop = "0\tPop\t-\t-\n";
    assert_eq!(
        refused(&[], pop),
        ":2: Pop needs at least 1 value on the stack; it has none here (23)"
    );
    assert_eq!(
        refused(&["7:0"], pop),
        ": the start 7:0 is at no instruction and not at the end, 1 (20)"
    );
    let listing = format!("{HEADER}{pop}");
    for words in [
        &["compile", "-", "0:1"][..],
        &["compile", "-", "1:0"],
        &["compile", "-", "--unchecked"],
    ] {
        let output = rules(words, listing.as_bytes());
        assert_eq!((output.status.code(), output.stdout), (Some(0), vec![0]), "{words:?}");
    }
    let broken = fs::read(repository("examples/brake-broken.rule")).expect("the rule is there");
    let output = rules(&["compile", "-"], &tokenfinch::listing(&broken));
    assert_eq!(
        text(&output.stderr),
        "-:8: two ways meet here with different depths: 1 from line 7 (LoadConst), and 2 from line 6 (Jump) (23)\n"
    );
}

#[test]
fn a_file_is_written_whole_or_not_at_all() {
    let folder = env::temp_dir().join(format!("tokenfinch-compile-{}", std::process::id()));
    fs::create_dir_all(&folder).expect("a folder for the files");
    let [listing, rule] = ["fixed.txt", "fixed.rule"].map(|name| folder.join(name));
    let [from, to] = [&listing, &rule].map(|path| path.to_str().expect("a plain path"));
    fs::write(&rule, "old").expect("the old rule is written");
    let compile = |lines: &str| {
        fs::write(&listing, format!("{HEADER}{lines}")).expect("the listing is written");
        rules(&["compile", from, "-o", to], b"")
    };
    let refused = compile("1\tNop\t-\t-\n");
    assert_eq!(
        text(&refused.stderr),
        format!("{from}:2: the offset is 0 here, not 1 (25)\n")
    );
    assert_eq!(
        (refused.status.code(), fs::read(&rule).ok()),
        (Some(1), Some(b"old".to_vec()))
    );
    let accepted = compile("0\tNop\t-\t-\n");
    assert_eq!(
        (accepted.status.code(), fs::read(&rule).ok()),
        (Some(0), Some(vec![105]))
    );
    assert!(accepted.stdout.is_empty() && accepted.stderr.is_empty());
    for words in [
        &["compile", from, "-o", from][..],
        &["compile", from, "-o", "no-such-folder/rule"],
    ] {
        assert_eq!(rules(words, b"").status.code(), Some(2), "{words:?}");
    }
    let left = fs::read_dir(&folder).expect("the folder is there").count();
    assert_eq!(left, 2, "nothing else is left beside the two files");
    fs::remove_dir_all(&folder).expect("the folder is removed");
}

/// The listing is a program of its own, which is there once `tools/program listing` was run.
#[test]
fn listings_come_from_the_proved_program() {
    if !repository("target/bin/listing").is_file() {
        println!("skipped: no target/bin/listing");
        return;
    }
    for (rule, status, last) in [("nine-bytes", 0, "8\tReturnValue\t-\t-"), ("cut-short", 1, "!\t9\t22")] {
        let file = repository(&format!("examples/{rule}.rule"));
        let output = rules(&["listing", file.to_str().expect("a plain path")], b"");
        assert_eq!(output.status.code(), Some(status), "{}", text(&output.stderr));
        assert_eq!(text(&output.stdout).lines().last(), Some(last));
        let code = fs::read(file).expect("the rule is there");
        assert_eq!(rules(&["listing", "-"], &code).stdout, output.stdout);
        if status == 0 {
            assert_eq!(rules(&["compile", "-"], &output.stdout).stdout, code);
        }
    }
}
