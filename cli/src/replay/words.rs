//! The words of a line. A word that is not what is asked for answers none, which goes all the way up to `? LINE`.

use tokenfinch::{Mode, Table};

/// The most bytes that can be given in hexadecimal.
const BYTES_MOST: usize = 500_000;

/// The most names that can be given in a list.
const NAMES_MOST: usize = 300;

/// The words that are left, if any.
#[derive(Clone, Copy)]
pub struct Words<'a>(Option<&'a [u8]>);

impl<'a> Words<'a> {
    pub fn new(line: &'a [u8]) -> Self {
        Self(Some(line))
    }

    /// The next word, which may be empty: that is none of any kind.
    pub fn word(&mut self) -> Option<&'a [u8]> {
        let rest = self.0?;
        let end = rest.iter().position(|&byte| byte == b' ');
        self.0 = end.map(|end| &rest[end + 1..]);
        Some(&rest[..end.unwrap_or(rest.len())])
    }

    /// Whether all words are taken.
    pub fn end(self) -> Option<()> {
        self.0.is_none().then_some(())
    }

    pub fn is_end(self) -> bool {
        self.0.is_none()
    }

    /// A number up to `most`.
    pub fn number(&mut self, most: u64) -> Option<u64> {
        natural(self.word()?).filter(|number| *number <= most)
    }

    /// 0 or 1.
    pub fn bit(&mut self) -> Option<u8> {
        self.u8().filter(|bit| *bit <= 1)
    }

    pub fn u8(&mut self) -> Option<u8> {
        u8::try_from(self.u64()?).ok()
    }

    pub fn u16(&mut self) -> Option<u16> {
        u16::try_from(self.u64()?).ok()
    }

    pub fn u32(&mut self) -> Option<u32> {
        u32::try_from(self.u64()?).ok()
    }

    pub fn u64(&mut self) -> Option<u64> {
        natural(self.word()?)
    }

    pub fn size(&mut self, most: usize) -> Option<usize> {
        usize::try_from(self.u64()?).ok().filter(|size| *size <= most)
    }

    /// A number that may be below 0.
    pub fn signed(&mut self) -> Option<i64> {
        match self.word()? {
            [b'-', digits @ ..] => {
                let number = natural(digits).filter(|number| *number > 0)?;
                0_i64.checked_sub_unsigned(number)
            }
            digits => i64::try_from(natural(digits)?).ok(),
        }
    }

    pub fn i8(&mut self) -> Option<i8> {
        i8::try_from(self.signed()?).ok()
    }

    pub fn i16(&mut self) -> Option<i16> {
        i16::try_from(self.signed()?).ok()
    }

    /// A number, or a word that stands for none.
    pub fn or_word(&mut self, word: &[u8], most: u64) -> Option<Option<u64>> {
        let given = self.word()?;
        if given == word {
            return Some(None);
        }
        natural(given).filter(|number| *number <= most).map(Some)
    }

    pub fn table(&mut self) -> Option<Table> {
        table(self.word()?)
    }

    /// The options of a check: the word `strict`, or none.
    pub fn mode(&mut self) -> Mode {
        let mut behind = *self;
        if behind.word() == Some(b"strict") {
            *self = behind;
            return Mode::Strict;
        }
        Mode::Net
    }

    /// Names to the line's end.
    pub fn names<T: TryFrom<u64>>(&mut self) -> Option<Vec<T>> {
        self.list(NAMES_MOST)
    }

    /// Numbers to the line's end, as many as there are.
    pub fn numbers<T: TryFrom<u64>>(&mut self) -> Option<Vec<T>> {
        self.list(usize::MAX)
    }

    fn list<T: TryFrom<u64>>(&mut self, most: usize) -> Option<Vec<T>> {
        let mut list = Vec::new();
        while !self.is_end() {
            if list.len() == most {
                return None;
            }
            list.push(T::try_from(self.u64()?).ok()?);
        }
        Some(list)
    }

    /// Bytes in hexadecimal, or `-` for none.
    pub fn bytes(&mut self) -> Option<Vec<u8>> {
        let word = self.word()?;
        if word == b"-" {
            return Some(Vec::new());
        }
        if word.is_empty() || word.len() % 2 != 0 || word.len() > 2 * BYTES_MOST {
            return None;
        }
        let pair = |pair: &[u8]| Some(digit(pair[0])? * 16 + digit(pair[1])?);
        word.chunks_exact(2).map(pair).collect()
    }
}

fn digit(byte: u8) -> Option<u8> {
    match byte {
        b'0'..=b'9' => Some(byte - b'0'),
        b'a'..=b'f' => Some(byte - b'a' + 10),
        _ => None,
    }
}

/// A decimal number without leading zeros.
fn natural(word: &[u8]) -> Option<u64> {
    match word {
        [] | [b'0', _, ..] => None,
        digits => digits.iter().try_fold(0_u64, |number, byte| {
            let value = byte.is_ascii_digit().then(|| u64::from(byte - b'0'))?;
            number.checked_mul(10)?.checked_add(value)
        }),
    }
}

fn table(word: &[u8]) -> Option<Table> {
    Some(match word {
        b"code" => Table::Code,
        b"locations" => Table::Locations,
        b"exceptions" => Table::Exceptions,
        b"constants" => Table::Constants,
        b"names" => Table::Names,
        b"marks" => Table::Marks,
        b"starts" => Table::Starts,
        _ => return None,
    })
}

#[cfg(test)]
mod tests {
    use super::*;

    #[test]
    fn numbers_at_the_ends_of_their_widths() {
        assert_eq!(natural(b"18446744073709551615"), Some(u64::MAX));
        for word in [
            &b"18446744073709551616"[..],
            b"",
            b"01",
            b"00",
            b"+1",
            b"-1",
            b"1a",
            b" 1",
        ] {
            assert_eq!(natural(word), None, "{word:?}");
        }
        let signed = |word: &str| Words::new(word.as_bytes()).signed();
        assert_eq!(signed("-9223372036854775808"), Some(i64::MIN));
        for word in ["-9223372036854775809", "-0", "-", "--1", "-01", "9223372036854775808"] {
            assert_eq!(signed(word), None, "{word}");
        }
        assert_eq!(Words::new(b"-128").i8(), Some(-128));
        assert_eq!(Words::new(b"-129").i8(), None);
        assert_eq!(Words::new(b"32768").i16(), None);
    }

    #[test]
    fn lists_end_with_the_line() {
        let names = |text: &str| {
            let mut words = Words::new(text.as_bytes());
            words.word();
            words.names::<u16>()
        };
        assert_eq!(names("x"), Some(vec![]));
        assert_eq!(names("x 1 65535"), Some(vec![1, 65_535]));
        assert_eq!(names("x 1 "), None);
        assert_eq!(names("x 65536"), None);
        assert_eq!(
            names(&format!("x{}", " 7".repeat(300))).map(|list| list.len()),
            Some(300)
        );
        assert_eq!(names(&format!("x{}", " 7".repeat(301))), None);
    }
}
