//! What the benchmark compares: the library, a plain search of the same rule files, a blind enumeration, and plain writers of the texts.
//!
//! `program` reads an accepted rule file into a tree, `machine` evaluates it, `prefix` reads and writes its input, `search` is the plain
//! search by narrowing, `blind` runs closed inputs one by one, `closed` runs a rule file on one of them, `text` prints a list and
//! `names` its names, `problems` has the rule files and `long` long lists, `compare` says where the plain side and the library differ, and
//! `measure` takes the times. The plain side uses nothing of the library.

pub mod blind;
pub mod closed;
pub mod compare;
pub mod long;
pub mod machine;
pub mod measure;
pub mod names;
pub mod prefix;
pub mod problems;
pub mod program;
pub mod search;
pub mod text;
