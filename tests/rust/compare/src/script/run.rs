//! Runs a script by the program and compares each answer.

use std::{
    collections::BTreeMap,
    env, fmt, fs,
    io::Write as _,
    path::{Path, PathBuf},
    process::{self, Command, Stdio},
    thread,
};

use super::Script;
use crate::tally::{Expected, Tally};

/// How often each refusal was answered, all in all and where the Rust was asked too.
#[derive(Default)]
pub struct Refusals(BTreeMap<u32, [u64; 2]>);

impl Refusals {
    fn count(&mut self, answer: &str, with_rust: bool) {
        let number = answer.strip_prefix("refused ").and_then(|rest| rest.split(' ').next());
        if let Some(number) = number {
            let [all, rust] = self
                .0
                .entry(number.parse().expect("a refusal has a number"))
                .or_default();
            *all += 1;
            *rust += u64::from(with_rust);
        }
    }
}

impl fmt::Display for Refusals {
    fn fmt(&self, f: &mut fmt::Formatter<'_>) -> fmt::Result {
        write!(f, "compare: refusals (of them with the Rust):")?;
        for (number, [all, rust]) in &self.0 {
            write!(f, " {number}: {all}")?;
            if *rust > 0 {
                write!(f, " ({rust})")?;
            }
        }
        Ok(())
    }
}

fn root() -> PathBuf {
    let here = Path::new(env!("CARGO_MANIFEST_DIR"));
    here.ancestors()
        .nth(3)
        .expect("the package stands in tests/rust/compare")
        .to_owned()
}

/// The proved program that prints listings, which `tools/program listing` puts there.
pub fn listing() -> PathBuf {
    program_at("target/bin/listing", "tools/program listing")
}

/// The program that runs scripts, over the archive that is compared, which tests/rust/run builds.
pub fn replay() -> PathBuf {
    program_at("target/cargo/x86_64-unknown-linux-gnu/release/replay", "tests/rust/run")
}

fn program_at(place: &str, made_by: &str) -> PathBuf {
    let program = root().join(place);
    if !program.is_file() {
        eprintln!(
            "compare: no program at {}: run {made_by} in the repository first",
            program.display()
        );
        process::exit(1);
    }
    program
}

/// A command that runs a program: by the emulator that runs this one, if there is one (tools/x86).
pub fn command(program: &Path) -> Command {
    match env::var_os("TOKENFINCH_RUNNER") {
        Some(emulator) => {
            let mut command = Command::new(emulator);
            command.arg(program);
            command
        }
        None => Command::new(program),
    }
}

/// The script that the program's own tests run, and the answers that are stored for it.
pub fn stored() -> (Vec<u8>, Vec<u8>) {
    let read = |name: &str| fs::read(root().join("cli/tests/replay").join(name)).expect("the stored script is there");
    (read("script"), read("answers"))
}

impl Script {
    /// A script with the lines of a text.
    pub fn of(text: &[u8]) -> Self {
        let mut script = Self::default();
        for line in text.strip_suffix(b"\n").unwrap_or(text).split(|&byte| byte == b'\n') {
            script.say(line);
        }
        script
    }

    /// Runs it and compares.
    pub fn run(self, tally: &mut Tally, refusals: &mut Refusals, program: &Path, what: &str) {
        let printed = answers(program, &self.text);
        self.compare(tally, refusals, &printed, what);
    }

    /// Compares each answer with the Rust's, where it has one, and with the text's.
    pub fn compare(self, tally: &mut Tally, refusals: &mut Refusals, printed: &str, what: &str) {
        let mut lines = printed.lines();
        for due in &self.dues {
            let answer = lines.next().unwrap_or("(no line)");
            let case = || {
                let line = self
                    .text
                    .split(|&byte| byte == b'\n')
                    .nth(due.line - 1)
                    .unwrap_or_default();
                format!("{what}, line {}: {}", due.line, String::from_utf8_lossy(line))
            };
            refusals.count(answer, due.by_rust.is_some());
            if let Some(by_rust) = &due.by_rust {
                tally.compare(answer, Expected::by_rust(by_rust.as_str()), case);
            }
            tally.compare(answer, Expected::by_text(due.by_text.as_str()), case);
        }
        tally.compare(lines.next(), Expected::by_text(None), || {
            format!("{what}: more lines than answers are due")
        });
    }
}

fn answers(program: &Path, text: &[u8]) -> String {
    let mut child = command(program)
        .stdin(Stdio::piped())
        .stdout(Stdio::piped())
        .stderr(Stdio::piped())
        .spawn()
        .expect("the program starts");
    let mut stdin = child.stdin.take().expect("its input is a pipe");
    let output = thread::scope(|scope| {
        scope.spawn(move || stdin.write_all(text).expect("the program reads all"));
        child.wait_with_output().expect("the program ends")
    });
    assert!(output.status.success(), "the program ended with {}", output.status);
    assert!(output.stderr.is_empty(), "the program wrote to standard error");
    String::from_utf8(output.stdout).expect("answers are ASCII")
}
