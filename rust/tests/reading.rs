//! Lists read and printed by the crate: the text of `reachlist` from its own calls, entries as trees, and calls at the same time.
#[path = "shared/boxes.rs"]
mod boxes;

use boxes::boxes;
use remburai::*;
use std::fmt::Write;
use std::{fs, thread};

/// The buffers of `reachlist`.
const WORDS: usize = 16_384;
const BYTES: usize = 32_768;

fn folder() -> String {
    format!("{}/../tests/reachlist", env!("CARGO_MANIFEST_DIR"))
}

/// The stored rule files with what `reachlist` prints.
fn stored() -> Vec<(Vec<u8>, String)> {
    let paths = fs::read_dir(folder())
        .expect("a folder")
        .map(|entry| entry.expect("an entry").path());
    let rules = paths.filter(|path| path.extension().is_some_and(|end| end == "rule"));
    let read = |path: std::path::PathBuf| {
        let printed = fs::read_to_string(path.with_extension("out")).expect("a stored text");
        (fs::read(path).expect("a rule file"), printed)
    };
    rules.map(read).collect()
}

/// What `reachlist` prints for a rule file.
fn text(file: &[u8]) -> String {
    let (mut work, mut list) = (vec![0; WORDS], vec![0; BYTES]);
    let answer = search(file, &mut work, &mut list);
    let (length, last) = match answer {
        Ok(listed) => (listed.length, listed.total(&list).to_string()),
        Err(SearchError::Full { length }) => (length, "refused 12".to_string()),
        Err(SearchError::Refused(why)) => (0, format!("refused {}", why.number())),
    };
    let mut text = String::new();
    for entry in entries(&list[..length]) {
        writeln!(text, "{entry}").expect("a string");
    }
    text + &last + "\n"
}

#[test]
fn texts() {
    let stored = stored();
    assert!(40 < stored.len());
    for (file, printed) in stored {
        assert_eq!(text(&file), printed);
    }
}

/// The trees of an entry, one for each parameter of the source, are printed as the entry is.
#[test]
fn trees() {
    let mut seen = 0;
    for (file, _) in stored() {
        let Ok(rule) = Rule::read(&file) else {
            continue;
        };
        let mut work = vec![0; work_words(rule.goal().steps as usize)];
        let mut list = vec![0; LIST_LIMIT];
        let listed = search(&file, &mut work, &mut list).expect("a complete list");
        for entry in entries(&list[..listed.length]) {
            let parts = entry.parts(&rule).expect("the rule's own parameters");
            assert_eq!(parts.len(), rule.parameters().len());
            let printed: String = parts.iter().map(|part| format!(" {part}")).collect();
            assert_eq!(
                entry.to_string(),
                format!("{} {}{printed}", entry.kind(), entry.steps())
            );
            see_types(&rule, rule.parameters(), &parts);
            seen += 1;
        }
    }
    assert!(5000 < seen, "{seen}");
}

/// Each bound part has as many fields as its constructor.
fn see_types(rule: &Rule, types: &[u8], parts: &[Part]) {
    assert_eq!(types.len(), parts.len());
    for (of, part) in types.iter().zip(parts) {
        if let Part::Bound(constructor, fields) = part {
            see_types(
                rule,
                rule.fields(*of, *constructor)
                    .expect("a constructor of the type"),
                fields,
            );
        }
    }
}

/// Two types: a list of colours, of which there are three, and the colours. The parameters are a list and a colour.
const COLOURS: &[u8] = b"TY\x02\x00\x02\x01\x00TY\x03\x00\x00\x00FN\x02\x00\x01\x01\x02\x00\x00\x01GO\x00\x07\x03\x14\x00";

fn parts_of(parameters: &[u8]) -> Option<Vec<Part>> {
    let mut list = b"UN\x14\x00".to_vec();
    list.extend((parameters.len() as u16).to_le_bytes());
    list.extend(parameters);
    let rule = Rule::read(COLOURS).expect("an accepted rule file");
    let entry = entries(&list).next().expect("an entry");
    assert_eq!(
        (entry.kind(), entry.steps(), entry.parameters()),
        (Kind::Unfinished, 20, parameters)
    );
    entry.parts(&rule)
}

#[test]
fn parts_of_two_types() {
    let colour = |number| Part::Bound(number, vec![]);
    let list = Part::Bound(1, vec![colour(2), Part::Open]);
    assert_eq!(parts_of(&[1, 2, 255, 0]), Some(vec![list, colour(0)]));
    assert_eq!(parts_of(&[255, 255]), Some(vec![Part::Open, Part::Open]));
    assert!(parts_of(&[1, 0, 1, 0, 0, 2]).is_some());
}

/// Bytes that are no parameters of the rule: too few, too many, no constructor of the type, too deep.
#[test]
fn parts_of_another_rule() {
    let wrong: [&[u8]; 8] = [
        &[],
        &[0],
        &[1, 0],
        &[0, 0, 0],
        &[2, 0],
        &[0, 3],
        &[1, 3, 0, 0],
        &[1, 0, 1, 0, 1, 0, 0, 0],
    ];
    for parameters in wrong {
        assert_eq!(parts_of(parameters), None, "{parameters:?}");
    }
    // at the last depth an open part has room, one level below it has none
    assert!(parts_of(&[1, 0, 1, 0, 255, 0]).is_some());
    assert_eq!(parts_of(&[1, 0, 1, 0, 1, 255, 255, 0]), None);
}

/// An open part is as deep as its type's least depth, that of its shallowest closed value.
#[test]
fn open_parts_that_are_too_deep() {
    let entry = entries(b"RE\x06\x00\x02\x00\x01\xFF").next().unwrap();
    for (depth, fits) in [(1, false), (2, false), (3, true)] {
        let rule = Rule::read(&boxes(depth)).unwrap();
        assert_eq!(entry.parts(&rule).is_some(), fits, "{depth}");
        let least: Vec<Option<u8>> = (0..4).map(|of| rule.least_depth(of)).collect();
        assert_eq!(least, [Some(1), Some(2), Some(1), None]);
    }
}

#[test]
fn what_a_rule_file_says() {
    let rule = Rule::read(COLOURS).unwrap();
    let goal = Goal {
        source: 0,
        label: 7,
        depth: 3,
        steps: 20,
    };
    assert_eq!((rule.goal(), rule.parameters()), (goal, &[0, 1][..]));
    assert_eq!(rule.fields(0, 1), Some(&[1, 0][..]));
    assert_eq!(
        (rule.fields(1, 2), rule.fields(1, 3), rule.fields(2, 0)),
        (Some(&[][..]), None, None)
    );
    // the source need not be the first function
    let records: [&[u8]; 5] = [
        &COLOURS[..13],
        b"FN\x00\x01\x03\x00\x02\x01\x02",
        &COLOURS[13..23],
        b"FN\x01\x01\x01\x02\x00\x00\x00",
        b"GO\x02\x09\x01\x00\x10",
    ];
    let rule = Rule::read(&records.concat()).unwrap();
    let goal = Goal {
        source: 2,
        label: 9,
        depth: 1,
        steps: 4096,
    };
    assert_eq!((rule.goal(), rule.parameters()), (goal, &[1][..]));
    assert_eq!((rule.names(), rule.named_parameters()), (None, 0));
}

/// The named type stands between the last function and the goal.
#[test]
fn what_a_record_of_names_says() {
    let records: [&[u8]; 6] = [
        b"TY\x02\x00\x03\x01\x01\x00",
        b"TY\x10\0\0\0\0\0\0\0\0\0\0\0\0\0\0\0\0",
        b"FN\x00\x01\x03\x00\x02\x01\x02",
        b"FN\x04\x00\x01\x01\x00\x01\x02\x00\x00\x01",
        b"NA\x00",
        b"GO\x01\x09\x05\x00\x10",
    ];
    let rule = Rule::read(&records.concat()).unwrap();
    assert_eq!((rule.names(), rule.named_parameters()), (Some(0), 2));
    let goal = Goal {
        source: 1,
        label: 9,
        depth: 5,
        steps: 4096,
    };
    assert_eq!((rule.goal(), rule.parameters()), (goal, &[0, 1, 1, 0][..]));
    assert_eq!(rule.fields(0, 1), Some(&[1, 1, 0][..]));
    let least: Vec<Option<u8>> = (0..3).map(|of| rule.least_depth(of)).collect();
    assert_eq!(least, [Some(1), Some(1), None]);
}

#[test]
fn totals() {
    let total = |reach, unfinished, missing, verdict| {
        Total {
            reach,
            unfinished,
            missing,
            verdict,
        }
        .to_string()
    };
    assert_eq!(total(0, 0, 0, Verdict::None), "total 0 0 0 0 none");
    assert_eq!(total(1, 2, 0, Verdict::Found), "total 1 2 0 67 found");
    assert_eq!(
        total(0, 3, 0, Verdict::Undecided),
        "total 0 3 0 100 undecided"
    );
    assert_eq!(total(199, 1, 0, Verdict::Found), "total 199 1 0 0 found");
    // an exact half goes to the even per cent
    assert_eq!(total(7, 1, 0, Verdict::Found), "total 7 1 0 12 found");
    assert_eq!(total(5, 3, 0, Verdict::Found), "total 5 3 0 38 found");
    // the share is of the first two alone
    assert_eq!(total(0, 0, 5, Verdict::None), "total 0 0 5 0 none");
    assert_eq!(total(1, 1, 98, Verdict::Found), "total 1 1 98 50 found");
}

/// A list with an entry of each kind, and its counts.
#[test]
fn kinds() {
    let list = b"MI\x03\x00\x01\x00\x00UN\x14\x00\x00\x00RE\x06\x00\x01\x00\xFFMI\x14\x00\x00\x00";
    let printed: Vec<String> = entries(list).map(|entry| entry.to_string()).collect();
    let wanted = ["missing 3 0", "unfinished 20", "reach 6 _", "missing 20"];
    assert_eq!(printed, wanted);
    let listed = Listed {
        length: list.len(),
        verdict: Verdict::Found,
    };
    assert_eq!(listed.total(list).to_string(), "total 1 1 2 50 found");
}

#[test]
fn words() {
    for (place, why) in Refusal::ALL.iter().enumerate() {
        assert_eq!(usize::from(why.number()), place + 1);
    }
    let printed = "refused 9 shallow: a source parameter's least depth exceeds D";
    assert_eq!(Refusal::DepthTooSmall.to_string(), printed);
    assert_eq!(Outcome::Ended(3).to_string(), "ended 3");
    assert_eq!(Outcome::Missing(3).to_string(), "missing 3");
    let (outcome, depth) = (Outcome::Unfinished(4096), 64);
    assert_eq!(Ran { outcome, depth }.to_string(), "unfinished 4096 64");
}

/// The crate has the version that its header says.
#[test]
fn version() {
    let header = fs::read_to_string(format!(
        "{}/../include/remburai.h",
        env!("CARGO_MANIFEST_DIR")
    ))
    .unwrap();
    let line = format!("#define REMBURAI_VERSION \"{VERSION}\"");
    assert!(
        header.lines().any(|have| have == line),
        "the header has no line {line}"
    );
}

/// Every type may be sent to another thread and be used by several at a time.
#[test]
fn types_for_threads() {
    fn see<T: Send + Sync>() {}
    see::<Refusal>();
    see::<SearchError>();
    see::<Listed>();
    see::<Outcome>();
    see::<Ran>();
    see::<Verdict>();
    see::<Rule>();
    see::<Goal>();
    see::<Entries>();
    see::<Entry>();
    see::<Kind>();
    see::<Part>();
    see::<Total>();
    see::<Name>();
}

/// Calls at the same time on the same files answer as one by one.
#[test]
fn calls_at_the_same_time() {
    let stored = stored();
    thread::scope(|scope| {
        for _ in 0..8 {
            scope.spawn(|| {
                stored
                    .iter()
                    .for_each(|(file, printed)| assert_eq!(text(file), *printed))
            });
        }
    });
}
