//! Listings: a rule's bytes as text, a line for each instruction, and that text read back.

use crate::{Checked, ReadError, Refusal, sys};

/// Room for many lines; the longest has under 2,048 bytes.
const PART: usize = 65_536;

/// The most bytes of code that a listing shows, and that one is read into.
const CODE_MOST: usize = 65_536;

/// The listing of code: a header, then for each instruction its offset, name, operands and target, parted by tabs. A fault
/// ends it with a line of `!`, offset and refusal; of over 65,536 bytes that line is all.
///
/// ```
/// let text = tokenfinch::listing(&[0x05, 0x65]);
/// assert_eq!(text, b"offset\tname\toperands\ttarget\n0\tLoadNone\t-\t-\n1\tReturnValue\t-\t-\n");
/// ```
#[must_use]
pub fn listing(code: &[u8]) -> Vec<u8> {
    // Every code has a listing, and a part has room for any line.
    joined(|from, text, told| sys::list(code, from, text, told)).expect("a line fits")
}

/// Reads a listing back, as [`listing`] makes it of code without a fault and nothing looser: the bytes of its instructions, dead
/// ones too. Depths are not part of it: [`check`](crate::check) is for that.
///
/// # Errors
/// At the first bad line: 24 where it is not formed as a line of a listing; then 25 where its offset or target is not the one
/// that results; then 18 where the code is over 65,536 bytes.
///
/// ```
/// let text = b"offset\tname\toperands\ttarget\n0\tLoadNone\t-\t-\n1\tReturnValue\t-\t-\n";
/// assert_eq!(tokenfinch::read_listing(text)?, [0x05, 0x65]);
///
/// let error = tokenfinch::read_listing(b"offset\tname\toperands\ttarget\n0\tLoadNone\t-\t-\n2\tPop\t-\t-\n").unwrap_err();
/// assert_eq!(error.to_string(), "line 3: refused 25: the offset or the target is not the one that results");
/// # Ok::<(), tokenfinch::ReadError>(())
/// ```
pub fn read_listing(text: &[u8]) -> Result<Vec<u8>, ReadError> {
    let mut code = vec![0; CODE_MOST];
    let length = read_listing_into(text, &mut code)?;
    code.truncate(length);
    Ok(code)
}

/// The same to the front of a lent slice. Answers how many bytes were read; no others are written, and a refusal writes nothing.
///
/// # Errors
/// As [`read_listing`], and 18 where an instruction ends past the slice.
pub fn read_listing_into(text: &[u8], code: &mut [u8]) -> Result<usize, ReadError> {
    sys::read_listing(text, code).read_lines().map(|length| length as usize)
}

impl Checked {
    /// The listing of the code that was checked, with the depth in front of each line, `-` where there is none, and a last
    /// line for the code's end.
    ///
    /// # Errors
    /// 10 and 21 where this is not the code that was checked, but a longer one.
    pub fn listing(&self, code: &[u8]) -> Result<Vec<u8>, Refusal> {
        joined(|from, text, told| sys::check_listing(code, self.depths(), from, text, told))
    }
}

/// Asks for one part after the other and joins them: that this is the whole listing, whatever text is lent, is proved.
fn joined(part: impl Fn(usize, &mut [u8], &mut [u64; 2]) -> sys::Answer) -> Result<Vec<u8>, Refusal> {
    let mut text = vec![0; PART];
    let mut told = [0; 2];
    let mut whole = Vec::new();
    let mut from = 0;
    while part(from, &mut text, &mut told).value()? == 1 {
        let [length, next] = told.map(|number| number as usize);
        whole.extend_from_slice(&text[..length]);
        from = next;
    }
    Ok(whole)
}
