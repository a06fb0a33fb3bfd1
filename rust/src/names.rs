//! The names that the entries of a list stand for, where the rule file names a type: their text, written to a lent slice, and the names as
//! values, read off that text.
use crate::{entries, search, text_bound, Refusal, Rule, SearchError, LIST_LIMIT};
use std::fmt;

extern "C" {
    fn remburai_names(
        file: *const u8,
        file_length: usize,
        work: *mut u32,
        work_length: usize,
        list: *mut u8,
        list_length: usize,
        text: *mut u8,
        text_length: usize,
    ) -> u64;
}

/// Searches a rule file as [`search`] does, in the same slices, which are left as that call leaves them, and writes the text of its names to
/// the front of `text`: what the program `namelist` prints.
///
/// The text has a line for each entry, in the order of the list, and for each parameter of the source that is of the named type, the one of
/// [`Rule::names`], in the order of the parameters: the bytes of a name in Latin-1, then those of the name in UTF-8, in decimal, with one space
/// between two numbers. The line of the empty name is empty. Open parts of the parameter are filled first, at each place with the first
/// constructor of least depth: an open name ends there, and an open half of a byte is 0. So the name is one of those that the entry stands
/// for. There is no total. Where the search is refused a last line says so, `refused` and the number ([`names_refusal`]); with 12 it stands
/// behind the names of the entries that are listed.
///
/// The result is the length of the whole text. A slice that is shorter has as many bytes of it as it holds, and bytes behind the text are as
/// before. The text never has more bytes than [`text_bound`] says of the list slice.
///
/// ```
/// use remburai::{names, text_bound, work_words};
///
/// // Halves of a byte and names. The target is where a name is not empty, whatever its first byte is.
/// let types = b"TY\x10\0\0\0\0\0\0\0\0\0\0\0\0\0\0\0\0TY\x02\x00\x03\x00\x00\x01";
/// let function = b"FN\x01\x01\x01\x0C\x00\x03\x01\x00\x00\x01\x00\x00\x01\x05\x07\x00\x00";
/// let file = [&types[..], function, b"NA\x01", b"GO\x00\x07\x02\x14\x00"].concat();
///
/// let (mut work, mut list, mut text) = (vec![0; work_words(20)], [0; 100], [0; text_bound(100)]);
/// let length = names(&file, &mut work, &mut list, &mut text);
/// assert_eq!(&text[..length], b"0 0\n");
/// assert_eq!(names(b"FN", &mut [], &mut [], &mut text[..7]), "refused 2\n".len());
/// assert_eq!(&text[..9], b"refused\0\0");
/// ```
pub fn names(file: &[u8], work: &mut [u32], list: &mut [u8], text: &mut [u8]) -> usize {
    // SAFETY: each pointer and length are those of one slice, lent until the call returns, all but the file to it alone.
    let answer = unsafe {
        remburai_names(
            file.as_ptr(),
            file.len(),
            work.as_mut_ptr(),
            work.len(),
            list.as_mut_ptr(),
            list.len(),
            text.as_mut_ptr(),
            text.len(),
        )
    };
    answer as usize
}

/// The refusal in the last line of a text that [`names`] has written, where there is one. Give the whole text.
///
/// ```
/// use remburai::{names_refusal, Refusal};
///
/// assert_eq!(names_refusal(b"201 195 137\nrefused 12\n"), Some(Refusal::ListFull));
/// assert_eq!(names_refusal(b"201 195 137\n"), None);
/// ```
pub fn names_refusal(text: &[u8]) -> Option<Refusal> {
    let mut lines = text.strip_suffix(b"\n")?.rsplit(|byte| *byte == b'\n');
    let number = lines.next()?.strip_prefix(b"refused ")?;
    let number: usize = std::str::from_utf8(number).ok()?.parse().ok()?;
    Refusal::ALL.get(number.checked_sub(1)?).copied()
}

/// The names in the list of a rule file, as values, in the order of the text of [`names`]: for each entry as many as
/// [`Rule::named_parameters`] says. The rule file is searched in the words of `work` and in `list`, as by [`search`], whose refusals are
/// given here too.
///
/// A list that is cut short by 12 is [`SearchError::Full`]. The names of the entries that fit are then in the text of [`names`], whose lines
/// [`Name::of_line`] reads.
///
/// ```
/// use remburai::{list_names, work_words};
///
/// // As above, with two names and a half of a byte between them; the target is where the second name is not empty.
/// let types = b"TY\x10\0\0\0\0\0\0\0\0\0\0\0\0\0\0\0\0TY\x02\x00\x03\x00\x00\x01";
/// let function = b"FN\x03\x01\x00\x01\x01\x0C\x00\x03\x01\x00\x02\x01\x00\x00\x01\x05\x07\x00\x00";
/// let file = [&types[..], function, b"NA\x01", b"GO\x00\x07\x02\x14\x00"].concat();
///
/// let (mut work, mut list) = (vec![0; work_words(20)], [0; 100]);
/// let names = list_names(&file, &mut work, &mut list).unwrap();
/// assert_eq!(names.len(), 2);
/// assert_eq!((names[0].latin1(), names[1].latin1()), (&b""[..], &b"\0"[..]));
/// ```
pub fn list_names(
    file: &[u8],
    work: &mut [u32],
    list: &mut [u8],
) -> Result<Vec<Name>, SearchError> {
    let rule = Rule::read(file).map_err(SearchError::Refused)?;
    let each = rule.named_parameters();
    if each == 0 {
        return search(file, work, list).map(|_| vec![]);
    }
    let counted = list.len().min(LIST_LIMIT);
    let mut text = vec![0; text_bound(counted)];
    let length = names(file, work, &mut list[..counted], &mut text);
    let text = std::str::from_utf8(&text[..length]).expect("letters, digits, spaces, line feeds");
    let lines = text.lines().filter(|line| !line.starts_with("refused"));
    let name = |line| Name::of_line(line).expect("a name in Latin-1 and in UTF-8");
    match names_refusal(text.as_bytes()) {
        None => Ok(lines.map(name).collect()),
        Some(Refusal::ListFull) => {
            let listed = entries(list).take(lines.count() / each);
            let length = listed.map(|entry| entry.bytes().len()).sum();
            Err(SearchError::Full { length })
        }
        Some(why) => Err(SearchError::Refused(why)),
    }
}

/// A name in Latin-1, as a value of the named type spells it. It is printed as its line in the text of [`names`]:
///
/// ```
/// let name = remburai::Name::of_line("201 195 137").unwrap();
/// assert_eq!((name.latin1(), &name.text()[..]), (&[201][..], "\u{c9}"));
/// assert_eq!(name.to_string(), "201 195 137");
/// ```
#[derive(Clone, Debug, PartialEq, Eq, Hash, PartialOrd, Ord)]
pub struct Name {
    latin1: Vec<u8>,
}

impl Name {
    /// The name in a line of the text, without its line feed. `None` where the line is not bytes of Latin-1 and then those of the same name
    /// in UTF-8.
    pub fn of_line(line: &str) -> Option<Name> {
        let numbers = line.split(' ').filter(|_| !line.is_empty());
        let numbers = numbers.map(|number| number.parse().ok());
        let mut latin1: Vec<u8> = numbers.collect::<Option<_>>()?;
        // A byte of Latin-1 has one of UTF-8 with it, from 128 on two.
        let (mut count, mut all) = (0, 0);
        while all < latin1.len() {
            all += if latin1[count] < 128 { 2 } else { 3 };
            count += 1;
        }
        latin1.truncate(count);
        let name = Name { latin1 };
        (name.to_string() == line).then_some(name)
    }

    /// The bytes of the name in Latin-1.
    pub fn latin1(&self) -> &[u8] {
        &self.latin1
    }

    /// The name as text, whose bytes are those of the name in UTF-8.
    pub fn text(&self) -> String {
        self.latin1.iter().map(|byte| char::from(*byte)).collect()
    }
}

impl fmt::Display for Name {
    fn fmt(&self, f: &mut fmt::Formatter<'_>) -> fmt::Result {
        let text = self.text();
        let bytes = self.latin1.iter().chain(text.as_bytes());
        let numbers: Vec<String> = bytes.map(u8::to_string).collect();
        f.write_str(&numbers.join(" "))
    }
}
