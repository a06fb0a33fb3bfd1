//! The printed text of a list, its length and its refusals: `slices` has what the calls do to the lent slice, `lists` which lists they take,
//! `stored` the text of every list that the stored rule files give. `reading` and `printing` read and print lists in another way, to compare
//! with.
#[path = "../shared/boxes.rs"]
mod boxes;
mod lists;
#[path = "../shared/printing.rs"]
mod printing;
mod reading;
mod slices;
mod stored;
