//! The lines of a script for `replay`, read for the two sides that the program is held against.

/// `dead` or `none` where a number may stand too.
pub const ABSENT: i128 = -1;

/// The longest line, without its end.
pub const LINE_MOST: usize = 1_048_576;

/// The most bytes that can be given in hexadecimal.
pub const BYTES_MOST: usize = 500_000;

/// The most names in a list.
const NAMES_MOST: usize = 300;

pub const CODE: usize = 0;
pub const LOCATIONS: usize = 1;
pub const EXCEPTIONS: usize = 2;
pub const CONSTANTS: usize = 3;
pub const NAMES: usize = 4;
pub const MARKS: usize = 5;
pub const STARTS: usize = 6;

/// The tables' words, in the order of `new` and `counts`.
pub const TABLES: [&str; 7] = [
    "code",
    "locations",
    "exceptions",
    "constants",
    "names",
    "marks",
    "starts",
];

/// The most cells of each table.
const CELLS_MOST: [i128; 7] = [1_048_640, 65_600, 65_600, 65_600, 65_600, 65_600, 65_600];

/// The most cells of a slice of the checker's, or of code that a listing is read into.
const DEPTHS_MOST: i128 = 2_000_000;

/// Each call with the kinds of its words: b u8, h u16, w u32, q u64, i i8, k 0 or 1, t `dead` or u64, d `dead` or u16,
/// f `none` or 0 to 9, T a table, x bytes, n u16 names to the end, m u32 names to the end, p u32 numbers to the end,
/// c cells of a slice, z bytes of 105.
const CALLS: [(&str, &str); 64] = [
    ("set_location", "ww"),
    ("set_location", "wwww"),
    ("emit", "b"),
    ("emit_u8", "bb"),
    ("emit_i8", "bi"),
    ("emit_u8_u8", "bbb"),
    ("emit_u16", "bh"),
    ("emit_u16_u16", "bhh"),
    ("emit_u16_u8", "bhb"),
    ("emit_u16_u8_u8", "bhbb"),
    ("emit_call_builtin_function", "bb"),
    ("emit_call_builtin_type", "bb"),
    ("emit_call_function_kw", "bn"),
    ("emit_call_attr_kw", "hbn"),
    ("emit_jump", "b"),
    ("patch_jump", "t"),
    ("emit_jump_to", "bt"),
    ("current_offset", ""),
    ("current_position", ""),
    ("current_jump_target", ""),
    ("register_local_names", "m"),
    ("register_local_name", "hw"),
    ("emit_raise_unbound_local", "w"),
    ("emit_load_local", "h"),
    ("emit_store_local", "h"),
    ("emit_load_global_callable", "hw"),
    ("emit_name_op", "bhwb"),
    ("add_const", "q"),
    ("add_exception_entry", "qqqhhk"),
    ("stack_depth", ""),
    ("is_dead", ""),
    ("new_code_region", "h"),
    ("build", "w"),
    ("tamper", "Tq"),
    ("poke", "Tqq"),
    ("counts", ""),
    ("cells", "Tqq"),
    ("sum", "T"),
    ("location_for_offset", "q"),
    ("find_exception_handler", "w"),
    ("constant", "q"),
    ("local_name", "q"),
    ("find_in_two", "wwwwhhkwwwhhk"),
    ("shape", "b"),
    ("taken", "b"),
    ("dead_maker", "b"),
    ("assert_flags", "f"),
    ("decode_assert_flags", "b"),
    ("fingerprint", ""),
    ("fnv1a", "x"),
    ("step", "xq"),
    ("check", "xp"),
    ("check strict", "xp"),
    ("check_slice", "ccxp"),
    ("check_slice strict", "ccxp"),
    ("check_zeros", "zcc"),
    ("check_zeros strict", "zcc"),
    ("check_here", ""),
    ("check_here strict", ""),
    ("read_listing", "cx"),
    // The rest is read by more than the kinds of its words.
    ("tamper depth", "d"),
    ("new dead", "0123456"),
    ("new live", "h0123456"),
    ("effect", "bseeeb"),
];

/// A line that is a call, its numbers in order, a table as its place in `TABLES`.
#[derive(Clone, Debug)]
pub struct Call {
    pub name: &'static str,
    pub numbers: Vec<i128>,
    pub bytes: Vec<u8>,
}

pub enum Line {
    /// Blank, or a comment.
    Silent,
    Bad,
    Call(Call),
}

pub fn parse(line: &[u8]) -> Line {
    if line.len() > LINE_MOST {
        return Line::Bad;
    }
    if line.is_empty() || line[0] == b'#' {
        return Line::Silent;
    }
    let Ok(text) = std::str::from_utf8(line) else {
        return Line::Bad;
    };
    let words: Vec<&str> = text.split(' ').collect();
    let read = CALLS.iter().find_map(|&(name, kinds)| call(name, kinds, &words));
    read.map_or(Line::Bad, Line::Call)
}

fn call(name: &'static str, kinds: &str, words: &[&str]) -> Option<Call> {
    let own = name.split(' ').count();
    if words.len() < own || !name.split(' ').eq(words[..own].iter().copied()) {
        return None;
    }
    let mut call = Call {
        name,
        numbers: Vec::new(),
        bytes: Vec::new(),
    };
    let mut rest = &words[own..];
    for kind in kinds.chars() {
        if matches!(kind, 'n' | 'm' | 'p') {
            let most = match kind {
                'n' => u16::MAX.into(),
                _ => u32::MAX.into(),
            };
            if kind != 'p' && rest.len() > NAMES_MOST {
                return None;
            }
            for word in rest {
                call.numbers.push(natural(word, most)?);
            }
            rest = &[];
        } else {
            let (word, behind) = rest.split_first()?;
            rest = behind;
            one_word(kind, word, &mut call)?;
        }
    }
    (rest.is_empty() && fits(&call)).then_some(call)
}

fn one_word(kind: char, word: &str, call: &mut Call) -> Option<()> {
    if kind == 'x' {
        call.bytes = bytes(word)?;
        return Some(());
    }
    call.numbers.push(match kind {
        'b' => natural(word, 255)?,
        'h' => natural(word, 65_535)?,
        'w' => natural(word, u32::MAX.into())?,
        'q' => natural(word, u64::MAX.into())?,
        'i' => signed(word, -128, 127)?,
        'e' => signed(word, -32_768, 65_535)?,
        's' => natural(word, 11)?,
        'k' => natural(word, 1)?,
        't' => or_word(word, "dead", u64::MAX.into())?,
        'd' => or_word(word, "dead", 65_535)?,
        'f' => or_word(word, "none", 9)?,
        'T' => TABLES.iter().position(|table| table == &word)? as i128,
        'c' => natural(word, DEPTHS_MOST)?,
        'z' => natural(word, 1_048_600)?,
        '0'..='6' => natural(word, CELLS_MOST[kind as usize - '0' as usize])?,
        _ => unreachable!("no kind {kind}"),
    });
    Some(())
}

/// `effect` has its operand's values within their fields, 0 where its shape has none.
fn fits(call: &Call) -> bool {
    if call.name != "effect" {
        return true;
    }
    let [_, shape, a, b, c, names] = call.numbers[..] else {
        return false;
    };
    const NONE: [i128; 2] = [0, 0];
    const BYTE: [i128; 2] = [0, 255];
    const WORD: [i128; 2] = [0, 65_535];
    let fields = match shape {
        0 => [NONE; 4],
        1 => [BYTE, NONE, NONE, NONE],
        2 => [[-128, 127], NONE, NONE, NONE],
        3 => [WORD, NONE, NONE, NONE],
        4 => [[-32_768, 32_767], NONE, NONE, NONE],
        5 => [BYTE, BYTE, NONE, NONE],
        6 => [WORD, BYTE, NONE, NONE],
        7 => [WORD, WORD, NONE, NONE],
        8 => [WORD, BYTE, BYTE, NONE],
        9 => [BYTE, NONE, NONE, BYTE],
        10 => [WORD, BYTE, NONE, BYTE],
        _ => [WORD, WORD, BYTE, NONE],
    };
    let given = [a, b, c, names];
    given
        .iter()
        .zip(fields)
        .all(|(value, [least, most])| (least..=most).contains(value))
}

fn or_word(word: &str, other: &str, most: i128) -> Option<i128> {
    if word == other {
        Some(ABSENT)
    } else {
        natural(word, most)
    }
}

fn natural(word: &str, most: i128) -> Option<i128> {
    let plain = !word.is_empty() && word.bytes().all(|byte| byte.is_ascii_digit());
    if !plain || (word.len() > 1 && word.starts_with('0')) || word.len() > 20 {
        return None;
    }
    word.parse().ok().filter(|number| *number <= most)
}

fn signed(word: &str, least: i128, most: i128) -> Option<i128> {
    match word.strip_prefix('-') {
        None => natural(word, most),
        Some(digits) => natural(digits, -least)
            .filter(|number| *number != 0)
            .map(|number| -number),
    }
}

fn bytes(word: &str) -> Option<Vec<u8>> {
    if word == "-" {
        return Some(Vec::new());
    }
    let digit = |byte: u8| match byte {
        b'0'..=b'9' => Some(byte - b'0'),
        b'a'..=b'f' => Some(byte - b'a' + 10),
        _ => None,
    };
    let digits: Option<Vec<u8>> = word.bytes().map(digit).collect();
    let digits = digits.filter(|digits| !digits.is_empty() && digits.len() % 2 == 0)?;
    let bytes: Vec<u8> = digits.chunks(2).map(|pair| pair[0] * 16 + pair[1]).collect();
    (bytes.len() <= BYTES_MOST).then_some(bytes)
}
