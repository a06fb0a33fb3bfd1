//! The names that the entries of a list stand for: `texts` has rule files with the lines of their names, `slices` what the call does to the
//! slices that it is lent, `refusals` which named types are refused, by every call, and `values` the names as values. `spelled` reads names
//! off a list in another way, to compare with: in `lists` on every rule file that is stored.
mod lists;
#[path = "../shared/naming.rs"]
mod naming;
mod refusals;
mod slices;
mod spelled;
mod texts;
mod values;
