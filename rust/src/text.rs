//! The printed text of a list: its length, and the text itself, written to a lent slice or to a new string.
use crate::Refusal;

extern "C" {
    fn remburai_text_length(
        file: *const u8,
        file_length: usize,
        list: *const u8,
        list_length: usize,
        full: bool,
    ) -> u64;
    fn remburai_write_text(
        file: *const u8,
        file_length: usize,
        list: *const u8,
        list_length: usize,
        full: bool,
        text: *mut u8,
        text_length: usize,
    ) -> u64;
}

/// The length in bytes of the printed text of a list, without writing it.
///
/// The text has a line for each entry and the total line, as `reachlist` prints them. With `full`, which says that the search ended in 12
/// ([`SearchError::Full`](crate::SearchError::Full)), it has the line `refused 12` in place of the total. Give the list alone,
/// `&list[..length]`: entries behind it that happen to fit would be printed too.
///
/// Refusals, the first that holds: 1 to 9 or 15 of the rule file, then [`Refusal::BadList`]: the list has more than
/// [`LIST_LIMIT`](crate::LIST_LIMIT) bytes, or is not whole entries of known kinds, each of at most S steps, whose parameters are one partial
/// value for each parameter of the source, of its type and no deeper than D (an open part is as deep as its type's least depth), with nothing
/// behind them. What a search of the file has written always passes, complete or cut short.
///
/// Nothing is searched: an entry may be false, stand there twice, or out of its order. Counts and verdict of the text are those of the list
/// that is handed in, and speak for the rule file only where its search returned that list.
///
/// ```
/// use remburai::{text_length, Refusal};
///
/// let file = b"TY\x02\x00\x01\x00FN\x01\x00\x00\x02\x00\x00\x00GO\x00\x07\x04\x14\x00";
/// let list = b"UN\x14\x00\x02\x00\x01\xFF";
/// assert_eq!(text_length(file, list, false), Ok("unfinished 20 1 _\ntotal 0 1 0 100 undecided\n".len()));
/// assert_eq!(text_length(file, list, true), Ok("unfinished 20 1 _\nrefused 12\n".len()));
/// assert_eq!(text_length(file, &list[1..], true), Err(Refusal::BadList));
/// ```
pub fn text_length(file: &[u8], list: &[u8], full: bool) -> Result<usize, Refusal> {
    // SAFETY: each pointer and length are those of one slice, lent until the call returns.
    let answer =
        unsafe { remburai_text_length(file.as_ptr(), file.len(), list.as_ptr(), list.len(), full) };
    length_in(answer)
}

/// Writes the printed text of a list to the front of `text`. The result is its length: that of [`text_length`], whose refusals are given
/// here too, and behind them [`Refusal::TextTooShort`], where `text` is shorter than that. With a refusal no byte of `text` is changed, and
/// without one those behind the text are as before. The text never has more bytes than [`text_bound`](crate::text_bound) says.
///
/// ```
/// use remburai::{text_length, write_text, Refusal};
///
/// let file = b"TY\x02\x00\x01\x00FN\x01\x00\x00\x02\x00\x00\x00GO\x00\x07\x04\x14\x00";
/// let list = b"MI\x03\x00\x01\x00\x00";
/// let length = text_length(file, list, false).unwrap();
/// let mut text = vec![0; length];
/// assert_eq!(write_text(file, list, false, &mut text), Ok(length));
/// assert_eq!(text, b"missing 3 0\ntotal 0 0 1 0 none\n");
/// assert_eq!(write_text(file, list, false, &mut text[1..]), Err(Refusal::TextTooShort));
/// ```
pub fn write_text(file: &[u8], list: &[u8], full: bool, text: &mut [u8]) -> Result<usize, Refusal> {
    // SAFETY: each pointer and length are those of one slice, lent until the call returns, text to it alone.
    let answer = unsafe {
        remburai_write_text(
            file.as_ptr(),
            file.len(),
            list.as_ptr(),
            list.len(),
            full,
            text.as_mut_ptr(),
            text.len(),
        )
    };
    length_in(answer)
}

/// The printed text of a list, as [`write_text`] writes it, in a string of just its length. The refusals are those of [`text_length`].
///
/// ```
/// let file = b"TY\x02\x00\x01\x00FN\x01\x00\x00\x02\x00\x00\x00GO\x00\x07\x04\x14\x00";
/// assert_eq!(remburai::list_text(file, b"", false).unwrap(), "total 0 0 0 0 none\n");
/// ```
pub fn list_text(file: &[u8], list: &[u8], full: bool) -> Result<String, Refusal> {
    let mut text = vec![0; text_length(file, list, full)?];
    write_text(file, list, full, &mut text)?;
    Ok(String::from_utf8(text).expect("letters, digits, underscores, spaces and line feeds"))
}

/// The length of the text from bit 16 of an answer on, or its refusal.
fn length_in(answer: u64) -> Result<usize, Refusal> {
    match Refusal::of(answer) {
        Some(why) => Err(why),
        None => Ok((answer >> 16) as usize),
    }
}
