//! Prints the list of a rule file: what each entry says, and its parameters as trees.
//!
//! From the root of the repository:
//!
//!     tools/prove remburai
//!     cargo run --manifest-path rust/Cargo.toml --example list examples/p.rule
//!
//! The last line prints
//!
//!     reached after 6 steps
//!       parameter 0
//!         constructor 1
//!           constructor 1
//!             anything
//!     total 1 0 0 0 found
//!     within depth 4, 20 steps
use remburai::{entries, search, work_words, Kind, Part, Rule, SearchError, LIST_LIMIT};
use std::error::Error;
use std::{env, fs};

/// Prints a part, each level of fields further to the right.
fn print(part: &Part, indent: usize) {
    match part {
        Part::Open => println!("{:indent$}anything", ""),
        Part::Bound(constructor, fields) => {
            println!("{:indent$}constructor {constructor}", "");
            fields.iter().for_each(|field| print(field, indent + 2));
        }
    }
}

fn print_list() -> Result<(), Box<dyn Error>> {
    let path = env::args_os().nth(1).ok_or("usage: list FILE")?;
    let file = fs::read(path)?;
    let rule = Rule::read(&file)?;
    let goal = rule.goal();
    let mut work = vec![0; work_words(goal.steps as usize)];
    let mut list = vec![0; LIST_LIMIT];
    let answer = search(&file, &mut work, &mut list);
    let length = match answer {
        Ok(listed) => listed.length,
        Err(SearchError::Full { length }) => length,
        Err(SearchError::Refused(why)) => return Err(why.into()),
    };
    for entry in entries(&list[..length]) {
        let ended = match entry.kind() {
            Kind::Reach => "reached",
            Kind::Unfinished => "unfinished",
            Kind::Missing => "missing an alternative",
        };
        println!("{ended} after {} steps", entry.steps());
        let parts = entry.parts(&rule).ok_or("an entry of another rule")?;
        for (number, part) in parts.iter().enumerate() {
            println!("  parameter {number}");
            print(part, 4);
        }
    }
    println!("{}", answer?.total(&list));
    println!("within depth {}, {} steps", goal.depth, goal.steps);
    Ok(())
}

fn main() {
    if let Err(why) = print_list() {
        eprintln!("{why}");
        std::process::exit(1);
    }
}
