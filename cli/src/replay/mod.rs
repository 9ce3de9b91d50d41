//! The program `replay`: a script of calls, one a line, and one line of answer to each (docs/REPLAY.md).

mod given;
mod lines;
mod out;
mod session;
mod tables;
mod words;

use std::io::{self, Read, Write};

use lines::{Line, Lines};
use out::Out;
use session::Session;

/// So much output is gathered before it is written, while there is input at hand.
const GATHERED: usize = 65_536;

/// Answers all lines of a script. What is answered is written out before the program waits for more input.
///
/// # Errors
/// The first error of reading or writing.
pub fn run(input: impl Read, mut output: impl Write) -> io::Result<()> {
    let mut lines = Lines::new(input);
    let mut session = Session::default();
    let mut out = Out::default();
    let mut number: u64 = 0;
    while let Some(line) = lines.next(|| out.write_to(&mut output))? {
        number += 1;
        answer(&mut session, &line, number, &mut out);
        if out.len() > GATHERED {
            out.write_to(&mut output)?;
        }
    }
    out.write_to(&mut output)
}

/// Answers one line; a blank one and a comment by nothing.
fn answer(session: &mut Session, line: &Line<'_>, number: u64, out: &mut Out) {
    let before = out.len();
    let said = match line {
        Line::Whole([] | [b'#', ..]) => return,
        Line::Whole(line) => session.answer(line, out),
        Line::TooLong => None,
    };
    match said {
        Some(()) => out.end(),
        None => out.bad(before, number),
    }
}

#[cfg(test)]
mod tests {
    use super::*;

    /// The answers to a script.
    fn answers(script: &[u8]) -> String {
        let mut out = Vec::new();
        run(script, &mut out).expect("memory can be read and written");
        String::from_utf8(out).expect("answers are ASCII")
    }

    /// The answer to each of some lines.
    fn told<const N: usize>(lines: [&str; N]) -> Vec<String> {
        answers(lines.join("\n").as_bytes())
            .lines()
            .map(str::to_owned)
            .collect()
    }

    #[test]
    fn lines_are_counted_and_blanks_and_comments_are_silent() {
        assert_eq!(answers(b"shape 5\n\n# shape 5\nnone\nshape 5"), "ok 0\n? 4\nok 0\n");
        assert_eq!(answers(b""), "");
        assert_eq!(answers(b"\n\n"), "");
        assert_eq!(answers(b"\nx"), "? 2\n");
    }

    #[test]
    fn words_are_parted_by_single_spaces() {
        for line in [
            " shape 5",
            "shape 5 ",
            "shape  5",
            "shape\t5",
            "shape 5\r",
            "shape 5\0",
            "shape",
            "shape 5 5",
            "Shape 5",
            "shape 5\u{7f}",
        ] {
            assert_eq!(answers(line.as_bytes()), "? 1\n", "{line:?}");
        }
        assert_eq!(answers(b"shape 5\xff"), "? 1\n");
        assert_eq!(answers(b"#\xff\t\r\0 "), "");
    }

    #[test]
    fn numbers_are_plain_and_fit() {
        for (word, good) in [
            ("0", true),
            ("255", true),
            ("256", false),
            ("00", false),
            ("05", false),
            ("-0", false),
            ("-1", false),
        ] {
            let said = answers(format!("decode_assert_flags {word}").as_bytes());
            assert_eq!(said.starts_with("ok"), good, "{word}");
        }
        assert_eq!(answers(b"step - 18446744073709551615"), "ok end\n");
        assert_eq!(answers(b"step - 18446744073709551616"), "? 1\n");
        assert_eq!(answers(b"step - 99999999999999999999999999999999"), "? 1\n");
    }

    #[test]
    fn bytes_are_pairs_of_small_digits() {
        assert_eq!(
            answers(b"step 08fe 0\nstep 08FE 0\nstep 08f 0\nstep  0\nstep 0x 0"),
            "ok 8 2 -2\n? 2\n? 3\n? 4\n? 5\n"
        );
        let most = "69".repeat(500_000);
        assert_eq!(answers(format!("step {most} 499999").as_bytes()), "ok 105 1\n");
        assert_eq!(answers(format!("step {most}69 0").as_bytes()), "? 1\n");
    }

    #[test]
    fn a_line_has_a_greatest_length() {
        let comment = |length| [b"#".repeat(length), b"\nshape 5\n".to_vec()].concat();
        assert_eq!(answers(&comment(1_048_576)), "ok 0\n");
        assert_eq!(answers(&comment(1_048_577)), "? 1\nok 0\n");
        assert_eq!(answers(&comment(3_000_000)), "? 1\nok 0\n");
        assert_eq!(answers(&b"#".repeat(1_048_577)), "? 1\n");
    }

    #[test]
    fn what_is_still_to_come_is_no_line_yet() {
        for line in [
            "table_number",
            "step table 4 05 0",
            "check table 4 05",
            "write_file 9",
            "read_file 1 1 1 1 1 1 00",
            "check_zeros table 4 1 2 2",
            "draw 1 1 1 05",
            "locate 1 1",
            "new table 4 dead 0 0 0 0 0 0 0",
            "new dead 0 1,1,1,1,1,1,1 0 0 0 0 0",
        ] {
            assert_eq!(answers(line.as_bytes()), "? 1\n", "{line}");
        }
        let told = told([
            "new dead 0 0 0 0 0 0 0",
            "set_location 1 2 clause 3",
            "tamper table 4",
            "paste 1 1 05 | | | |",
            "check_here table 4",
        ]);
        assert_eq!(told, ["ok", "? 2", "? 3", "? 4", "? 5"]);
    }

    #[test]
    fn hashes_are_decimal() {
        let told = told([
            "fingerprint",
            "fnv1a -",
            "fnv1a 00",
            "fnv1a 666f6f626172",
            "fingerprint 4",
            "fnv1a",
            "fnv1a 0",
            "fnv1a 00 00",
            "fnv1a FF",
        ]);
        assert_eq!(
            told,
            [
                "ok 5184925606828724623",
                "ok 14695981039346656037",
                "ok 12638153115695167455",
                "ok 9625390261332436968",
                "? 5",
                "? 6",
                "? 7",
                "? 8",
                "? 9"
            ]
        );
    }

    #[test]
    fn strict_stands_in_front() {
        // The sums are of 65536 three times and of zeros, of 3 10 twice, of 65536 and 0, of 1 0.
        let told = told([
            "check strict 0517 0 0",
            "check 0517 0 0",
            "check strict 050517 0 0",
            "check strict - 0 3",
            "check_slice strict 3 3 0517 0 0",
            "check_slice strict 2 2 0517 0 0",
            "check_zeros strict 0 1 1",
            "new live 1 2 0 0 0 0 0 2",
            "emit 23",
            "check_here strict",
            "check_here",
            "check 0517 strict 0 0",
            "check strict",
            "check strict strict 05",
            "check_here strict strict",
            "check_slice 3 3 strict 05",
        ]);
        let blank = "994605";
        assert_eq!(
            told,
            [
                "refused 26 1",
                "ok 2 1 0 1 0",
                "ok 3 2 0 1 2 1",
                "ok 0 3 3",
                &format!("refused 26 1 {blank} 0"),
                "refused 21 781 781",
                "ok 0 0 15 0",
                "ok",
                "ok",
                "refused 26 0",
                "ok 1 1 257",
                "? 12",
                "? 13",
                "? 14",
                "? 15",
                "? 16"
            ]
        );
    }

    #[test]
    fn listings_are_read_back() {
        let text = |lines: &str| {
            let text = format!("offset\tname\toperands\ttarget\n{lines}");
            text.bytes().map(|byte| format!("{byte:02x}")).collect::<String>()
        };
        let (none, two) = (text(""), text("0\tLoadNone\t-\t-\n1\tReturnValue\t-\t-\n"));
        // The sums are of 5 101, of the two cells of room as they were, 3 10, and of three: 5 101 17, 3 10 17.
        let told = told([
            &format!("read_listing 0 {none}"),
            &format!("read_listing 2 {two}"),
            &format!("read_listing 3 {two}"),
            &format!("read_listing 1 {two}"),
            "read_listing 0 -",
            &format!("read_listing 3 {two}0a"),
            &format!("read_listing 2 {}", text("0\tLoadNone\t-\t-\n2\tReturnValue\t-\t-\n")),
            &format!("read_listing 2000000 {none}"),
        ]);
        assert_eq!(
            told[..7],
            [
                "ok - 0",
                "ok 0565 1386",
                "ok 0565 356219",
                "refused 18 3 code 3",
                "refused 24 1 0",
                "refused 24 4 200734",
                "refused 25 3 781",
            ]
        );
        assert!(told[7].starts_with("ok - "));
        for words in ["", " 1", " 1 ", " 2000001 -", " 1 - 1", " 1 0", " -1 -", " 1 0A"] {
            assert_eq!(answers(format!("read_listing{words}").as_bytes()), "? 1\n", "{words}");
        }
    }

    #[test]
    fn tables_have_their_limits() {
        assert_eq!(answers(b"new dead 1048640 65600 65600 65600 65600 65600 65600"), "ok\n");
        for place in 0..7 {
            let sizes: Vec<String> = (0..7)
                .map(|i| match (i == place, i) {
                    (false, _) => "0".to_owned(),
                    (true, 0) => "1048641".to_owned(),
                    (true, _) => "65601".to_owned(),
                })
                .collect();
            assert_eq!(answers(format!("new dead {}", sizes.join(" ")).as_bytes()), "? 1\n");
        }
        let told = told([
            "check_slice 2000000 2000000 -",
            "check_slice 2000001 1 -",
            "check_slice 1 2000001 -",
            "check_slice 1 -",
            "check_zeros 1048601 0 0",
            "check_zeros 0 2000001 1",
            "check_zeros 0 1 2000001",
            "check_zeros 0 1",
        ]);
        assert!(told[0].starts_with("ok 0 0 "));
        assert_eq!(told[1..], ["? 2", "? 3", "? 4", "? 5", "? 6", "? 7", "? 8"]);
    }

    #[test]
    fn without_a_builder_there_is_none() {
        let told = told([
            "emit 5",
            "counts",
            "new live 0 9 0 0 0 0 0 1",
            "emit 5",
            "new live 0 9 0 0 0 0 0 2",
            "emit 5",
            "new live",
            "emit 5",
        ]);
        assert_eq!(
            told,
            ["? 1", "? 2", "refused 18 starts", "? 4", "ok", "ok", "? 7", "ok"]
        );
    }

    #[test]
    fn the_greatest_row_is_no_dead_one() {
        let told = told([
            "new live 0 9 0 0 0 0 0 2",
            "patch_jump 18446744073709551615",
            "patch_jump dead",
            "emit_jump_to 88 18446744073709551615",
            "emit_jump_to 88 dead",
        ]);
        assert_eq!(told, ["ok", "refused 13", "ok", "refused 13", "refused 12"]);
    }

    #[test]
    fn answers_come_before_more_is_waited_for() {
        /// Hands out one line at a time, and looks whether all before it is answered.
        struct Typed<'a>(Vec<&'a [u8]>);
        impl Read for Typed<'_> {
            fn read(&mut self, buffer: &mut [u8]) -> io::Result<usize> {
                let Some(line) = self.0.pop() else { return Ok(0) };
                buffer[..line.len()].copy_from_slice(line);
                Ok(line.len())
            }
        }
        struct Seen(Vec<Vec<u8>>);
        impl Write for &mut Seen {
            fn write(&mut self, bytes: &[u8]) -> io::Result<usize> {
                self.0.push(bytes.to_vec());
                Ok(bytes.len())
            }
            fn flush(&mut self) -> io::Result<()> {
                Ok(())
            }
        }
        let mut seen = Seen(Vec::new());
        run(Typed(vec![b"e 6", b"shap", b"shape 5\n"]), &mut seen).expect("all is in memory");
        assert_eq!(seen.0, [b"ok 0\n", b"ok 0\n"]);
    }
}
