//! Long lists: the list of a problem, over and over, as often as a list may be long.
use crate::compare::library_list;
use crate::problems::Problem;
use remburai::{SearchError, LIST_LIMIT};

pub struct LongList<'p> {
    pub problem: &'p Problem,
    pub list: Vec<u8>,
}

impl LongList<'_> {
    /// That of a problem, none where its list is empty.
    pub fn of(problem: &Problem) -> Result<Option<LongList<'_>>, SearchError> {
        let (list, _) = library_list(&problem.file)?;
        let times = LIST_LIMIT.checked_div(list.len());
        Ok(times.map(|times| LongList {
            problem,
            list: list.repeat(times),
        }))
    }
}
