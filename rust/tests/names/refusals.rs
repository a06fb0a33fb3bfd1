//! Which records NA are refused, by which number, and that every call gives it and changes no slice.
use crate::naming::*;
use crate::slices::text_of;
use remburai::*;

const WORD: u32 = 0xA5A5_A5A5;
const BYTE: u8 = 0x5A;

/// A rule file with these types, the last of which is a leaf, the result; one function of these parameters; and a named type.
fn file(types: &[Vec<u8>], parameters: &[u8], named: u8) -> Vec<u8> {
    let types = [types, &[ty(&[&[]])]].concat();
    let result = types.len() as u8 - 1;
    let source = function(parameters, result, &[5, 7, 2, result, 0]);
    [&types.concat()[..], &source, b"NA", &[named], &goal(4, 20)].concat()
}

/// Sees that every call refuses a file by this number, whatever else is wrong, and that no slice is changed but the text of names.
fn see(file: &[u8], number: u8) {
    let why = Refusal::ALL[number as usize - 1];
    assert_eq!(check(file), Err(why), "{file:02x?}");
    assert_eq!(Rule::read(file), Err(why));
    for words in [0, work_words(20)] {
        let (mut work, mut list) = (vec![WORD; words], [BYTE; 100]);
        let refused = Err(SearchError::Refused(why));
        assert_eq!(search(file, &mut work, &mut list), refused);
        assert_eq!(
            list_names(file, &mut work, &mut list).map(|_| ()),
            refused.map(|_: Listed| ())
        );
        assert_eq!(run(file, &[99], &mut work), Err(why));
        assert!(work.iter().all(|word| *word == WORD));
        assert!(list.iter().all(|byte| *byte == BYTE));
        assert_eq!(text_of(file, words, 100), format!("refused {number}\n"));
    }
    for list in [&b""[..], b"RE"] {
        let mut text = [BYTE; 100];
        assert_eq!(text_length(file, list, false), Err(why));
        assert_eq!(write_text(file, list, true, &mut text), Err(why));
        assert_eq!(write_text(file, list, true, &mut []), Err(why));
        assert!(text.iter().all(|byte| *byte == BYTE));
    }
}

/// The halves are type 0, the type that is named is type 1, and another type of halves is type 2.
fn see_form(constructors: &[&[u8]], accepted: bool) {
    let types = [ty(&HALVES), ty(constructors), ty(&HALVES)];
    let file = file(&types, &[1], 1);
    match accepted {
        true => assert_eq!(check(&file), Ok(()), "{constructors:?}"),
        false => see(&file, 15),
    }
}

#[test]
fn forms_of_the_named_type() {
    see_form(&[&[], &[0, 0, 1]], true);
    see_form(&[&[], &[0, 2, 1]], true);
    see_form(&[&[], &[2, 0, 1]], true);
    see_form(&[&[], &[2, 2, 1]], true);
    let wrong: [&[&[u8]]; 15] = [
        &[&[]],
        &[&[], &[]],
        &[&[], &[0, 0, 1], &[]],
        &[&[], &[0, 0, 1], &[0, 0, 1]],
        &[&[0], &[0, 0, 1]],
        &[&[0, 0, 1], &[]],
        &[&[], &[0, 1]],
        &[&[], &[0, 0]],
        &[&[], &[0, 0, 0]],
        &[&[], &[0, 0, 2]],
        &[&[], &[0, 0, 1, 0]],
        &[&[], &[0, 0, 0, 1]],
        &[&[], &[1, 0, 0]],
        &[&[], &[0, 1, 0]],
        &[&[], &[0, 1, 1]],
    ];
    wrong
        .iter()
        .for_each(|constructors| see_form(constructors, false));
}

/// A type of halves with another number of constructors, or with a field in one of them, as the first half and as the second.
#[test]
fn forms_of_the_halves() {
    let with_field = |place: usize| {
        let mut constructors = HALVES;
        constructors[place] = &[3];
        constructors.to_vec()
    };
    let wrong = [
        HALVES[..15].to_vec(),
        with_field(0),
        with_field(7),
        with_field(15),
    ];
    for constructors in wrong {
        for fields in [[0, 2, 1], [2, 0, 1], [2, 2, 1]] {
            let types = [ty(&HALVES), ty(&[&[], &fields]), ty(&constructors)];
            see(&file(&types, &[1], 1), 15);
        }
        // the same type beside the named one is no matter
        let types = [ty(&HALVES), ty(&[&[], &[0, 0, 1]]), ty(&constructors)];
        assert_eq!(check(&file(&types, &[1], 1)), Ok(()));
    }
}

/// The halves or the numbers named, also where no parameter is of that type.
#[test]
fn other_types() {
    for named in [HALF, NUMBER] {
        for parameters in [&[][..], &[NAME], &[HALF, NUMBER]] {
            let source = function(parameters, NAME, &[5, 7, 2, NAME, 0]);
            see(
                &[&types()[..], &source, b"NA", &[named], &goal(3, 20)].concat(),
                15,
            );
        }
    }
}

/// Marks out of their turn, files that are cut off, and numbers of types that are not there.
#[test]
fn places_of_the_record() {
    let (types, source) = (types(), function(&[NAME], NAME, &REACHED));
    let (name, goal) = (&b"NA\x01"[..], goal(3, 20));
    let whole = [&types[..], &source, name, &goal].concat();
    assert_eq!(check(&whole), Ok(()));
    for wrong in [
        [name, &types, &source, &goal].concat(),
        [&types, name, &source, &goal].concat(),
        [&types[..], name, &goal].concat(),
        [&types, &source, name, name, &goal].concat(),
        [&types, &source, name, &source, &goal].concat(),
        [&types, &source, name, &types[..], &goal].concat(),
        [&types, &source, &b"NB\x01"[..], &goal].concat(),
    ] {
        see(&wrong, 2);
    }
    (0..whole.len()).for_each(|end| see(&whole[..end], 1));
    see(&[&types, &source, &goal, name].concat(), 7);
    for number in [3, 4, 31, 32, 255] {
        see(&[&types[..], &source, b"NA", &[number], &goal].concat(), 4);
    }
}

/// 15 is tested straight after 9: what is refused by less is refused so with a wrong named type too.
#[test]
fn order_of_the_refusals() {
    let source = function(&[NAME], NAME, &REACHED);
    let wrong = [&types()[..], &source, b"NA\x02", &goal(3, 20)].concat();
    see(&wrong, 15);
    let end = wrong.len();
    let changed = |at: usize, byte: u8| {
        let mut file = wrong.clone();
        file[at] = byte;
        file
    };
    see(&changed(end - 3, 65), 3);
    see(&changed(end - 5, 1), 4);
    see(&changed(end - 14, 6), 5);
    see(&[&wrong[..], &[0]].concat(), 7);
    // a parameter whose least depth is 2, and D 1
    let boxes = [types(), ty(&[&[HALF]])].concat();
    for (named, number) in [(NAME, 9), (NUMBER, 9), (HALF, 9)] {
        let source = function(&[3], NAME, &[2, NAME, 0]);
        let file = [&boxes[..], &source, b"NA", &[named], &goal(1, 20)].concat();
        see(&file, number);
    }
    let hollow = [types(), ty(&[&[3]])].concat();
    see(&[&hollow[..], &source, b"NA\x02", &goal(3, 20)].concat(), 8);
}

/// Every file that is a rule file with one byte changed: the text has the refusal of the check alone, or that of the search, or names.
#[test]
fn damaged_files() {
    let whole = rule(&[NAME, NUMBER, NAME], &if_byte(2, &REACHED));
    let mut seen = [0; 16];
    for at in 0..whole.len() {
        for byte in 0..=255 {
            let mut file = whole.clone();
            file[at] = byte;
            let text = text_of(&file, work_words(20), 100);
            let number = check(&file).map_or_else(Refusal::number, |()| 0);
            assert!(number == 0 || text == format!("refused {number}\n"));
            seen[number as usize] += 1;
        }
    }
    for number in [0, 1, 2, 3, 4, 5, 6, 7, 15] {
        assert!(0 < seen[number], "{seen:?}");
    }
}
