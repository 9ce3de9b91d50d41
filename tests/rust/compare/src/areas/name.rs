//! The name of every opcode byte against Rust's own printing, into every room from none to more than enough.
//! No byte beyond the name may change, nor any at all after a refusal.

use std::fmt;

use super::named;
use crate::{
    Plan, original,
    proved::{self, Answer},
    tally::{Expected, Tally},
};

const BUFFER: usize = 48;

/// Room is lent up to here; the rest of the buffer is not lent and must stay as it is too.
const LARGEST_ROOM: usize = 40;

pub fn run(tally: &mut Tally, _: &mut Plan) {
    for byte in 0..=u8::MAX {
        let name = original::opcode(byte).map(|op| format!("{op:?}"));
        let nowhere = Expected::by_header(if name.is_some() {
            Answer::no_room()
        } else {
            Answer::refused(1)
        });
        tally.compare(proved::opcode_name_nowhere(byte), nowhere, || {
            format!("{}, null", named(byte))
        });
        for room in 0..=LARGEST_ROOM {
            for filling in [0x00, 0xa5, 0xff] {
                one(tally, byte, name.as_deref(), room, filling);
            }
        }
    }
}

/// An answer, and the whole buffer behind the call.
#[derive(PartialEq)]
struct Written(Answer, [u8; BUFFER]);

impl fmt::Debug for Written {
    fn fmt(&self, f: &mut fmt::Formatter<'_>) -> fmt::Result {
        write!(f, "{:?} and writes \"{}\"", self.0, self.1.escape_ascii())
    }
}

fn one(tally: &mut Tally, byte: u8, name: Option<&str>, room: usize, filling: u8) {
    let mut buffer = [filling; BUFFER];
    let answer = proved::opcode_name(byte, &mut buffer[..room]);
    let expected = expected(name, room, filling);
    tally.compare(Written(answer, buffer), expected, || {
        format!("{}, room {room}, filled with {filling}", named(byte))
    });
}

fn expected(name: Option<&str>, room: usize, filling: u8) -> Expected<Written> {
    let mut buffer = [filling; BUFFER];
    let Some(name) = name else {
        return Expected::by_rust(Written(Answer::refused(1), buffer));
    };
    if room < name.len() {
        return Expected::by_header(Written(Answer::no_room(), buffer));
    }
    buffer[..name.len()].copy_from_slice(name.as_bytes());
    Expected::by_rust(Written(Answer::accepted(name.len() as i32), buffer))
}
