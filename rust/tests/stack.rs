//! The stack that a call needs: each call on a thread with a small stack of its own, with what nests deepest. The proofs say nothing of the
//! stack; a call that needs more than the thread has ends the test by a signal.
//!
//! What nests: the check of a body, by its expressions, up to the one at nesting 33, which is refused; the reading of a closed input, by
//! its depth, up to a constructor at depth 65, which is refused however many stand in it; the writing of an entry, by its depth and by the
//! parameters and fields before each part: so the eighth parameter, and the last of six fields at every depth; the reading of a list that is
//! handed in, by the depth of its values; and the reading of a name, by its bytes.
use remburai::*;
use std::thread;

/// The stack that README.md and include/remburai.h call enough.
const STACK: usize = 256 * 1024;

const DEPTH: u8 = 64;
const NESTING: usize = 32;
const PARAMETERS: u8 = 8;
const FIELDS: u8 = 6;

/// A rule file with one type, a leaf (constructor 0) and a node of six fields (constructor 1), and one function of eight parameters with
/// this body.
fn tree_rule(body: &[u8]) -> Vec<u8> {
    let mut file = b"TY\x02\x00\x06\x00\x00\x00\x00\x00\x00FN\x08".to_vec();
    file.extend([0; PARAMETERS as usize + 1]);
    file.extend((body.len() as u16).to_le_bytes());
    file.extend(body);
    file.extend(b"GO\x00\x07");
    file.push(DEPTH);
    file.extend((STEP_LIMIT as u16).to_le_bytes());
    file
}

/// The rule that follows the last field of every node of the last parameter down to a leaf, its target.
fn descent() -> Vec<u8> {
    let last = PARAMETERS - 1;
    let mut body = vec![3, 0, 0, last, 1, 5, 7, 2, 0, 0, 1, 1, 0];
    body.extend((0..last).flat_map(|variable| [0, variable]));
    body.extend([0, last + FIELDS]);
    tree_rule(&body)
}

/// A variable inside as many expressions as make it nest so deep.
fn nested(before: &[u8], behind: &[u8], nesting: usize) -> Vec<u8> {
    let before = before.repeat(nesting - 1);
    tree_rule(&[&before, &[0, 0][..], &behind.repeat(nesting - 1)].concat())
}

fn on_a_small_stack(call: impl FnOnce() + Send + 'static) {
    let thread = thread::Builder::new().stack_size(STACK).spawn(call);
    thread.expect("a thread").join().expect("no panic");
}

/// Expressions inside an alternative of a case, its scrutinee, a field, an argument, a let's bound expression, and a target: at nesting 32
/// accepted, at 33 refused there. What binds variables comes to the limit of the view before.
#[test]
fn a_check_of_the_deepest_bodies() {
    let field = [&[2, 0, 1][..], &[0, 0].repeat(FIELDS as usize - 1)].concat();
    let argument = [&[1, 0][..], &[0, 0].repeat(PARAMETERS as usize - 1)].concat();
    let bodies: [(&[u8], &[u8]); 6] = [
        (&[3, 0, 0, 0, 1], &[0]),
        (&[3, 0], &[0, 0]),
        (&field, &[]),
        (&argument, &[]),
        (&[4, 0], &[0, 0]),
        (&[5, 7], &[]),
    ];
    for (before, behind) in bodies {
        let (most, more) = (
            nested(before, behind, NESTING),
            nested(before, behind, NESTING + 1),
        );
        on_a_small_stack(move || assert_eq!(check(&most), Ok(())));
        on_a_small_stack(move || assert_eq!(check(&more), Err(Refusal::OutOfRange)));
    }
}

#[test]
fn a_search_with_the_deepest_entries() {
    on_a_small_stack(|| {
        let mut work = vec![0; work_words(STEP_LIMIT)];
        let mut list = vec![0; 64 * 400];
        let listed = search(&descent(), &mut work, &mut list).expect("a complete list");
        assert_eq!(listed.verdict, Verdict::Found);
        let all = entries(&list[..listed.length]);
        let lengths: Vec<usize> = all.map(|entry| entry.bytes().len()).collect();
        let shallowest = 6 + PARAMETERS as usize;
        let fields = FIELDS as usize;
        let expected: Vec<usize> = (0..DEPTH as usize)
            .map(|nodes| shallowest + fields * nodes)
            .collect();
        assert_eq!(lengths, expected);
    });
}

/// A tree, so deep, whose nodes stand one in another, each with so many leaves before the next one.
fn tree(depth: u8, before: usize) -> Vec<u8> {
    let nodes = depth as usize - 1;
    let behind = FIELDS as usize - 1 - before;
    let down = [&[1], &vec![0; before][..]].concat().repeat(nodes);
    [&down, &[0][..], &vec![0; behind * nodes]].concat()
}

/// Nested in the first field, in one between, and in the last; in every parameter, and one deeper in one of them.
#[test]
fn a_run_on_the_deepest_inputs() {
    for before in [0, 2, FIELDS as usize - 1] {
        on_a_small_stack(move || {
            let mut work = vec![0; work_words(STEP_LIMIT)];
            let mut values = vec![tree(DEPTH, before); PARAMETERS as usize];
            let ran = run(&descent(), &values.concat(), &mut work).expect("it fits");
            assert!(matches!(ran.outcome, Outcome::Reached(_)), "{ran}");
            assert_eq!(ran.depth, DEPTH);
            for place in [0, PARAMETERS as usize - 1] {
                values[place] = tree(DEPTH + 1, before);
                let deeper = run(&descent(), &values.concat(), &mut work);
                assert_eq!(deeper, Err(Refusal::BadInput));
                values[place] = tree(DEPTH, before);
            }
        });
    }
}

/// A million nodes, each in the first field of the one before it or in the last, in the first parameter or in the last.
#[test]
fn a_run_on_very_long_inputs() {
    on_a_small_stack(|| {
        let mut work = vec![0; work_words(STEP_LIMIT)];
        let values = tree(DEPTH, 0).repeat(PARAMETERS as usize - 1);
        for node in [&[1][..], &[1, 0, 0, 0, 0, 0]] {
            let long = node.repeat(1_000_000);
            for input in [long.clone(), [values.clone(), long].concat()] {
                assert_eq!(run(&descent(), &input, &mut work), Err(Refusal::BadInput));
            }
        }
    });
}

/// An entry, 64 deep in the last parameter, with this behind its 63 nodes.
fn deepest_entry(end: &[u8]) -> Vec<u8> {
    let node = [1, 255, 255, 255, 255, 255].repeat(DEPTH as usize - 1);
    let parameters = [&[255; PARAMETERS as usize - 1], &node[..], end].concat();
    let mut entry = b"RE\x06\x00".to_vec();
    entry.extend((parameters.len() as u16).to_le_bytes());
    entry.extend(parameters);
    entry
}

/// A node at depth 64, which makes an entry one deeper than it may be.
const NODE: [u8; 7] = [1, 255, 255, 255, 255, 255, 255];

#[test]
fn a_text_of_the_deepest_entries() {
    on_a_small_stack(|| {
        let file = descent();
        let entry = deepest_entry(&[0]);
        let printed = entries(&entry).next().expect("an entry").to_string();
        let text = list_text(&file, &entry.repeat(3), true);
        assert_eq!(text, Ok(format!("{printed}\n").repeat(3) + "refused 12\n"));
        for wrong in [&NODE[..], &[2], &[1; 1000]] {
            let list = [entry.clone(), deepest_entry(wrong)].concat();
            assert_eq!(list_text(&file, &list, true), Err(Refusal::BadList));
        }
    });
}

/// A rule file with eight names, which walks the last of them down to its end, the target.
fn names_rule() -> Vec<u8> {
    let last = PARAMETERS - 1;
    let mut body = vec![3, 1, 0, last, 1, 5, 7, 0, 0, 1, 1, 0];
    body.extend((0..last).flat_map(|variable| [0, variable]));
    body.extend([0, last + 3]);
    let types = [b"TY\x10", &[0; 16][..], b"TY\x02\x00\x03\x00\x00\x01"];
    let head = [b"FN\x08", &[1; PARAMETERS as usize + 1][..]];
    let length = (body.len() as u16).to_le_bytes();
    let goal = [
        b"NA\x01GO\x00\x07",
        &[DEPTH][..],
        &(STEP_LIMIT as u16).to_le_bytes(),
    ];
    [
        &types.concat(),
        &head.concat(),
        &length[..],
        &body,
        &goal.concat(),
    ]
    .concat()
}

/// Names of up to 63 bytes, all of them 0, behind seven that are empty.
#[test]
fn the_names_of_the_deepest_entries() {
    on_a_small_stack(|| {
        let mut work = vec![0; work_words(STEP_LIMIT)];
        let (mut list, mut text) = (vec![0; 64 * 210], vec![0; 64 * 850]);
        let length = names(&names_rule(), &mut work, &mut list, &mut text);
        let empty = "\n".repeat(PARAMETERS as usize - 1);
        let line = |count| vec!["0"; 2 * count].join(" ");
        let lines: String = (0..DEPTH as usize)
            .map(|count| format!("{empty}{}\n", line(count)))
            .collect();
        assert_eq!(text[..length], *lines.as_bytes());
        let names = list_names(&names_rule(), &mut work, &mut list).expect("a complete list");
        assert_eq!(names.last().expect("a name").latin1(), [0; 63]);
    });
}

/// The deepest entry as trees, and printed.
#[test]
fn the_deepest_parts() {
    on_a_small_stack(|| {
        let list = deepest_entry(&[0]);
        let entry = entries(&list).next().expect("an entry");
        let rule = Rule::read(&descent()).expect("an accepted rule file");
        let parts = entry.parts(&rule).expect("its parameters");
        let printed: String = parts.iter().map(|part| format!(" {part}")).collect();
        assert_eq!(entry.to_string(), format!("reach 6{printed}"));
        // one deeper is none of the rule's
        let list = deepest_entry(&NODE);
        assert_eq!(entries(&list).next().expect("an entry").parts(&rule), None);
    });
}
