//! The command, run as a user runs it: what it prints, its exit statuses, and what it does with streams that are closed or full. Rule files
//! are those of tests/reachlist, for which the blind side gives what is printed. Texts go through tools/rule, or through the one that
//! REMBURAI_RULE names.
mod calling;
mod forms;
mod json;
mod names;
mod refusals;
mod rules;
mod storing;
mod streams;
mod texts;
mod unstored;
mod usage;
mod verdicts;
