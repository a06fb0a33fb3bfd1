//! The calls on the examples of the specification, on damaged files, and in slices that are empty, one too short or very long, with guards
//! before and behind them that no call may change.
use remburai::*;

/// The example P: D is 4 and S is 20.
const P: [u8; 43] = [
    0x54, 0x59, 0x02, 0x00, 0x01, 0x00, 0x46, 0x4E, 0x01, 0x00, 0x00, 0x17, 0x00, 0x03, 0x00, 0x00,
    0x00, 0x01, 0x02, 0x00, 0x00, 0x01, 0x03, 0x00, 0x00, 0x01, 0x01, 0x02, 0x00, 0x00, 0x01, 0x05,
    0x07, 0x02, 0x00, 0x00, 0x47, 0x4F, 0x00, 0x07, 0x04, 0x14, 0x00,
];

/// The example whose type has no closed value.
const HOLLOW: [u8; 21] = [
    0x54, 0x59, 0x01, 0x01, 0x00, 0x46, 0x4E, 0x01, 0x00, 0x00, 0x02, 0x00, 0x00, 0x00, 0x47, 0x4F,
    0x00, 0x07, 0x04, 0x14, 0x00,
];

const FORMAT: &str = include_str!("../../docs/FORMAT.md");

const GUARD: usize = 64;
const WORD: u32 = 0xA5A5_A5A5;
const BYTE: u8 = 0x5A;

/// Two types, the second with one constructor over the first; one parameter of the second type, which is the body.
const BOX: [u8; 25] = [
    0x54, 0x59, 0x01, 0x00, 0x54, 0x59, 0x01, 0x01, 0x00, 0x46, 0x4E, 0x01, 0x01, 0x01, 0x02, 0x00,
    0x00, 0x00, 0x47, 0x4F, 0x00, 0x07, 0x02, 0x14, 0x00,
];

/// P with another label, D and S.
fn changed(label: u8, depth: u8, steps: u16) -> Vec<u8> {
    let mut file = P.to_vec();
    file[39] = label;
    file[40] = depth;
    file[41..].copy_from_slice(&steps.to_le_bytes());
    file
}

/// P without its alternative for zero, with another D and S.
fn uncovered(depth: u8, steps: u16) -> Vec<u8> {
    let mut file = changed(7, depth, steps);
    file[11] -= 3;
    file.splice(17..21, [0]);
    file
}

/// Slices with guards before and behind them.
struct Lent {
    words: Vec<u32>,
    bytes: Vec<u8>,
}

impl Lent {
    fn new(words: usize, bytes: usize) -> Lent {
        Lent {
            words: vec![WORD; words + 2 * GUARD],
            bytes: vec![BYTE; bytes + 2 * GUARD],
        }
    }

    fn work(&mut self) -> &mut [u32] {
        let end = self.words.len() - GUARD;
        &mut self.words[GUARD..end]
    }

    fn list(&self) -> &[u8] {
        &self.bytes[GUARD..self.bytes.len() - GUARD]
    }

    /// Searches, and sees that the guards, the bytes behind the list and the words from `spare` on are as before.
    fn search(&mut self, file: &[u8], spare: usize) -> Result<Listed, SearchError> {
        let (w, b) = (self.words.len() - GUARD, self.bytes.len() - GUARD);
        let answer = search(file, &mut self.words[GUARD..w], &mut self.bytes[GUARD..b]);
        let (length, spare) = match answer {
            Ok(listed) => (listed.length, spare),
            Err(SearchError::Full { length }) => (length, spare),
            Err(SearchError::Refused(_)) => (0, 0),
        };
        assert!(length <= self.list().len().min(LIST_LIMIT));
        assert!(self.bytes[..GUARD].iter().all(|x| *x == BYTE));
        assert!(self.bytes[GUARD + length..].iter().all(|x| *x == BYTE));
        self.see_words(spare);
        answer
    }

    /// The same of a run.
    fn run(&mut self, file: &[u8], input: &[u8], spare: usize) -> Result<Ran, Refusal> {
        let answer = run(file, input, self.work());
        self.see_words(if answer.is_ok() { spare } else { 0 });
        answer
    }

    fn see_words(&self, spare: usize) {
        let from = (GUARD + spare).min(self.words.len() - GUARD);
        assert!(self.words[..GUARD].iter().all(|x| *x == WORD));
        assert!(self.words[from..].iter().all(|x| *x == WORD));
    }
}

/// What a run of this outcome says, on an input of this depth.
fn ran(outcome: Outcome, depth: u8) -> Result<Ran, Refusal> {
    Ok(Ran { outcome, depth })
}

/// The list and the verdict of a file, in slices that are long enough.
fn listed(file: &[u8], steps: usize) -> (Vec<u8>, Verdict) {
    let mut lent = Lent::new(work_words(steps), 1000);
    let answer = lent.search(file, work_words(steps)).unwrap();
    (lent.list()[..answer.length].to_vec(), answer.verdict)
}

fn entry_of(mark: &[u8; 2], steps: u8, parameters: &[u8]) -> Vec<u8> {
    [mark, &[steps, 0, parameters.len() as u8, 0][..], parameters].concat()
}

#[test]
fn the_examples() {
    let reach = || (entry_of(b"RE", 6, &[1, 1, 255]), Verdict::Found);
    assert_eq!(listed(&P, 20), reach());
    assert_eq!(listed(&changed(7, 3, 20), 20), reach());
    assert_eq!(listed(&changed(7, 4, 6), 6), reach());
    assert_eq!(listed(&changed(7, 2, 20), 20), (vec![], Verdict::None));
    assert_eq!(listed(&changed(7, 1, 20), 20), (vec![], Verdict::None));
    assert_eq!(
        listed(&changed(7, 4, 5), 5),
        (entry_of(b"UN", 5, &[1, 255]), Verdict::Undecided)
    );
    assert_eq!(
        listed(&changed(7, 4, 2), 2),
        (entry_of(b"UN", 2, &[255]), Verdict::Undecided)
    );
    assert_eq!(
        listed(&changed(7, 4, 0), 0),
        (entry_of(b"UN", 0, &[255]), Verdict::Undecided)
    );
    assert_eq!(
        listed(&changed(8, 4, 6), 6),
        (entry_of(b"UN", 6, &[1, 1, 255]), Verdict::Undecided)
    );
    assert_eq!(listed(&changed(8, 4, 7), 7), (vec![], Verdict::None));
}

/// That an alternative is missing is found by a step: at step S it still is, and with S steps done before the entry is unfinished. An entry
/// of this kind alone leaves the verdict none. docs/FORMAT.md shows its bytes.
#[test]
fn entries_of_a_missing_alternative() {
    let missing = entry_of(b"MI", 3, &[0]);
    let shown: Vec<String> = missing.iter().map(|byte| format!("{byte:02X}")).collect();
    assert!(FORMAT.contains(&format!("`{}`", shown.join(" "))));
    let with =
        |mark, steps, parameters| [missing.clone(), entry_of(mark, steps, parameters)].concat();
    assert_eq!(
        listed(&uncovered(4, 20), 20),
        (with(b"RE", 6, &[1, 1, 255]), Verdict::Found)
    );
    assert_eq!(
        listed(&uncovered(2, 20), 20),
        (missing.clone(), Verdict::None)
    );
    assert_eq!(
        listed(&uncovered(4, 3), 3),
        (with(b"UN", 3, &[1, 255]), Verdict::Undecided)
    );
    assert_eq!(
        listed(&uncovered(4, 2), 2),
        (entry_of(b"UN", 2, &[255]), Verdict::Undecided)
    );
    let words = work_words(20);
    for (room, length) in [(0, 0), (6, 0), (7, 7), (15, 7)] {
        assert_eq!(
            Lent::new(words, room).search(&uncovered(4, 20), words),
            Err(SearchError::Full { length })
        );
    }
}

#[test]
fn runs_into_a_missing_alternative() {
    let outcomes = [
        (20, Outcome::Missing(3)),
        (3, Outcome::Missing(3)),
        (2, Outcome::Unfinished(2)),
    ];
    for (steps, outcome) in outcomes {
        let words = work_words(steps as usize);
        assert_eq!(
            Lent::new(words, 0).run(&uncovered(4, steps), &[0], words),
            ran(outcome, 1)
        );
    }
}

#[test]
fn the_closed_runs_of_the_examples() {
    let words = work_words(20);
    assert_eq!(
        Lent::new(words, 0).run(&P, &[0], words),
        ran(Outcome::Ended(3), 1)
    );
    assert_eq!(
        Lent::new(words, 0).run(&P, &[1, 1, 0], words),
        ran(Outcome::Reached(6), 3)
    );
    assert_eq!(
        Lent::new(words, 0).run(&changed(7, 4, 5), &[1, 1, 0], words),
        ran(Outcome::Unfinished(5), 3)
    );
    for input in [&[][..], &[1], &[2], &[0, 0], &[1, 1, 1, 1, 0], &[255]] {
        assert_eq!(
            Lent::new(words, 0).run(&P, input, words),
            Err(Refusal::BadInput),
            "{input:?}"
        );
    }
    // 10 before 11
    assert_eq!(Lent::new(0, 0).run(&P, &[1], 0), Err(Refusal::BadInput));
}

fn changed_at(file: &[u8], at: usize, byte: u8) -> Vec<u8> {
    let mut file = file.to_vec();
    file[at] = byte;
    file
}

#[test]
fn one_file_for_each_refusal_of_the_check() {
    let longer = vec![0; FILE_LIMIT + 1];
    let with = |at: usize, byte: u8| changed_at(&P, at, byte);
    let behind = [&P[..], &[0]].concat();
    let cases: [(&[u8], u8); 15] = [
        (b"", 1),
        (&P[..42], 1),
        (&P[6..], 2),
        (&changed(7, 65, 20), 3),
        (&changed(7, 0, 20), 3),
        (&changed(7, 4, 4097), 3),
        (&longer, 3),
        (&with(4, 0xFF), 3),
        (&with(5, 1), 4),
        (&with(13, 6), 5),
        (&with(35, 2), 4),
        (&behind, 7),
        (&HOLLOW, 8),
        (&changed_at(&BOX, 13, 0), 6),
        (&changed_at(&BOX, 22, 1), 9),
    ];
    for (file, number) in cases {
        assert_eq!(
            check(file).map_err(Refusal::number),
            Err(number),
            "{file:?}"
        );
        let why = Refusal::ALL[number as usize - 1];
        assert_eq!(
            Lent::new(work_words(20), 100).search(file, 0),
            Err(SearchError::Refused(why))
        );
        assert_eq!(Lent::new(work_words(20), 0).run(file, &[0], 0), Err(why));
    }
    assert_eq!(check(&P), Ok(()));
    assert_eq!(check(&BOX), Ok(()));
}

#[test]
fn numbers_of_the_refusals() {
    for (i, why) in Refusal::ALL.into_iter().enumerate() {
        assert_eq!(why.number() as usize, i + 1);
    }
}

/// Every file that is P cut, or P with one byte changed: all three calls agree, and no guard is changed.
#[test]
fn damaged_files() {
    let see = |file: &[u8]| {
        let mut lent = Lent::new(work_words(20), 40);
        let mut ran = Lent::new(work_words(20), 0);
        let spare = work_words(20);
        match check(file) {
            Ok(()) => {
                // The changed file may ask for another S.
                assert!(!matches!(
                    lent.search(file, spare),
                    Err(SearchError::Refused(why)) if why != Refusal::WorkTooShort
                ));
                assert!(!matches!(ran.run(file, &[1, 1, 0], spare), Err(why) if why.number() < 10));
            }
            Err(why) => {
                assert!(why.number() <= 9);
                assert_eq!(lent.search(file, 0), Err(SearchError::Refused(why)));
                assert_eq!(ran.run(file, &[1, 1, 0], 0), Err(why));
            }
        }
    };
    for length in 0..P.len() {
        assert_eq!(check(&P[..length]), Err(Refusal::Truncated));
        see(&P[..length]);
    }
    for at in 0..P.len() {
        for byte in 0..=255 {
            let mut file = P.to_vec();
            file[at] = byte;
            see(&file);
        }
    }
}

#[test]
fn work_slices_from_empty_to_long() {
    let words = work_words(20);
    for short in [0, 1, 1023, 1024, words - 1] {
        assert_eq!(
            Lent::new(short, 100).search(&P, 0),
            Err(SearchError::Refused(Refusal::WorkTooShort))
        );
        assert_eq!(
            Lent::new(short, 0).run(&P, &[1, 1, 0], 0),
            Err(Refusal::WorkTooShort)
        );
    }
    for long in [words, words + 1, work_words(STEP_LIMIT), 10_000_000] {
        let mut lent = Lent::new(long, 100);
        assert_eq!(lent.search(&P, words).map(|listed| listed.length), Ok(9));
        assert_eq!(
            Lent::new(long, 0).run(&P, &[1, 1, 0], words),
            ran(Outcome::Reached(6), 3)
        );
    }
}

#[test]
fn list_slices_from_empty_to_long() {
    let words = work_words(20);
    for short in 0..9 {
        assert_eq!(
            Lent::new(words, short).search(&P, words),
            Err(SearchError::Full { length: 0 })
        );
    }
    for long in [
        9,
        10,
        LIST_LIMIT - 1,
        LIST_LIMIT,
        LIST_LIMIT + 1,
        2 * LIST_LIMIT + 5,
    ] {
        let mut lent = Lent::new(words, long);
        let listed = lent.search(&P, words).unwrap();
        assert_eq!((listed.length, listed.verdict), (9, Verdict::Found));
        assert_eq!(entry(lent.list(), 0), entry_of(b"RE", 6, &[1, 1, 255]));
        assert_eq!(entry(lent.list(), 1), b"");
    }
    // where there is nothing to list, no byte is needed
    assert_eq!(
        Lent::new(words, 0).search(&changed(7, 2, 20), words),
        Ok(Listed {
            length: 0,
            verdict: Verdict::None
        })
    );
}

#[test]
fn entries_of_lists() {
    assert_eq!(entry(b"", 0), b"");
    assert_eq!(entry(b"", usize::MAX), b"");
    let first = entry_of(b"UN", 2, &[255]);
    let second = entry_of(b"MI", 6, &[]);
    let both = [&first[..], &second].concat();
    assert_eq!(entry(&both, 0), first);
    assert_eq!(entry(&both, 1), second);
    assert_eq!(entry(&both, 1).as_ptr(), both[first.len()..].as_ptr());
    assert_eq!(
        entry(&both, 2).as_ptr_range().start,
        both.as_ptr_range().end
    );
    assert_eq!(entry(&both, usize::MAX), b"");
    let all: Vec<&[u8]> = entries(&both).map(|entry| entry.bytes()).collect();
    assert_eq!(all, [&first[..], &second]);
    // a header or a length that runs past the end, and an unknown mark
    for end in first.len()..both.len() {
        assert_eq!(entry(&both[..end], 0), first);
        assert_eq!(entry(&both[..end], 1), b"");
    }
    for end in 0..first.len() {
        assert_eq!(entry(&first[..end], 0), b"");
        assert_eq!(entries(&first[..end]).count(), 0);
    }
    for mark in [b"RN", b"MN", b"UI", b"RI", b"ME", b"mi", b"MI"] {
        let alone = entry_of(mark, 2, &[255]);
        let wanted = if mark == b"MI" { &alone[..] } else { b"" };
        assert_eq!(entry(&alone, 0), wanted);
    }
}

/// Of a list only the first 16,777,216 bytes count: an entry that ends behind them is none.
#[test]
fn a_list_longer_than_what_counts() {
    let one = entry_of(b"RE", 1, &[0; 10]);
    let list: Vec<u8> = one.iter().copied().cycle().take(LIST_LIMIT + 160).collect();
    assert_eq!(LIST_LIMIT % one.len(), 0);
    let last = LIST_LIMIT / one.len() - 1;
    assert_eq!(entry(&list, last), one);
    assert_eq!(entry(&list, last + 1).as_ptr(), list[LIST_LIMIT..].as_ptr());
    assert_eq!(entry(&list, last + 1), b"");
    assert_eq!(entry(&list[1..], 0), b"");
    assert_eq!(entries(&list).count(), last + 1);
    assert_eq!(entry(&list[16..LIST_LIMIT + 8], last), b"");
}
