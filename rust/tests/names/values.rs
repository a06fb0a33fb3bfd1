//! Names as values: those of a list, and those of lines.
use crate::naming::*;
use crate::spelled::line;
use remburai::*;

fn found(file: &[u8], words: usize, bytes: usize) -> Result<Vec<Name>, SearchError> {
    list_names(file, &mut vec![0; words], &mut vec![0; bytes])
}

fn latin1(names: &[Name]) -> Vec<&[u8]> {
    names.iter().map(Name::latin1).collect()
}

#[test]
fn names_of_a_list() {
    let words = work_words(20);
    let file = rule(&[NAME], &if_byte(0, &every_half(1)));
    let names = found(&file, words, 160).expect("a list");
    let first: Vec<u8> = (0..16).map(|half| 16 * half).collect();
    assert_eq!(latin1(&names), first.chunks(1).collect::<Vec<_>>());
    assert_eq!(names[12].text(), "\u{c0}");
    // two names for each entry
    let file = rule(&[NAME, HALF, NAME], &if_byte(2, &REACHED));
    let names = found(&file, words, 100).expect("a list");
    assert_eq!(latin1(&names), [&[][..], &[0]]);
    // without names
    let file = rule(&[HALF], &[5, 7, 2, NAME, 0]);
    assert_eq!(found(&file, words, 100), Ok(vec![]));
}

/// The length of a list that is cut short is that of the entries that fit, also where there is an old list behind them, and where there are
/// no names.
#[test]
fn refused_lists() {
    let words = work_words(20);
    let (of_names, of_halves) = (if_byte(0, &every_half(1)), every_half(0));
    let named = rule(&[NAME], &of_names);
    let result = [&of_halves[..4], &[1, 5, 7, 2, NAME, 0].repeat(16)].concat();
    let unnamed = rule(&[HALF], &result);
    for (file, size) in [(&named, 10), (&unnamed, 7)] {
        let mut list = vec![0; 1000];
        search(file, &mut vec![0; words], &mut list).expect("a list");
        for room in 0..16 * size {
            let answer = list_names(file, &mut vec![0; words], &mut list[..room]);
            let length = room / size * size;
            assert_eq!(answer, Err(SearchError::Full { length }), "{room}");
        }
        let short = SearchError::Refused(Refusal::WorkTooShort);
        assert_eq!(found(file, words - 1, 1000), Err(short));
    }
    let refused = |why| Err(SearchError::Refused(why));
    assert_eq!(found(b"FN", words, 100), refused(Refusal::UnexpectedMark));
    let mut other = named.clone();
    let place = named.len() - 8;
    other[place] = HALF;
    assert_eq!(found(&other, words, 100), refused(Refusal::BadSpelling));
}

#[test]
fn lines_of_names() {
    let names: [&[u8]; 6] = [
        b"",
        b"\0",
        b"RELAY 7",
        &[201],
        &[255; 63],
        &[127, 128, 191, 192],
    ];
    for latin1 in names {
        let name = Name::of_line(&line(latin1)).expect("the line of a name");
        assert_eq!((name.latin1(), name.to_string()), (latin1, line(latin1)));
    }
    for byte in 0..=255 {
        let name = Name::of_line(&line(&[byte])).expect("the line of a name");
        assert_eq!(name.text(), char::from(byte).to_string());
    }
}

/// Lines that are none of a name: one form alone, another name in UTF-8, numbers that are no bytes, other spaces.
#[test]
fn other_lines() {
    for line in [
        "201",
        "201 195",
        "195 137",
        "201 195 138",
        "201 201",
        "65 66",
        "65",
        "0 0 0",
        "256 256",
        "-1 -1",
        "65 65 ",
        " 65 65",
        "65  65",
        "065 65",
        "+65 65",
        "65 65\n",
        "refused 12",
        "x",
        " ",
        "201 195 137 0",
    ] {
        assert_eq!(Name::of_line(line), None, "{line:?}");
    }
}

#[test]
fn refusals_of_texts() {
    for why in Refusal::ALL {
        let last = format!("refused {}\n", why.number());
        assert_eq!(names_refusal(last.as_bytes()), Some(why));
        let behind = format!("\n201 195 137\n{last}");
        assert_eq!(names_refusal(behind.as_bytes()), Some(why));
    }
    for text in [
        "",
        "\n",
        "12 12\n",
        "refused 12",
        "refused 0\n",
        "refused 16\n",
        "refused 12\n12 12\n",
        "refused \n",
    ] {
        assert_eq!(names_refusal(text.as_bytes()), None, "{text:?}");
    }
}
