//! What an answer stands for, in sentences: never without the depth and the step limit within which it holds.
use remburai::{Goal, Outcome, Ran, Rule, Total, Verdict, STEP_LIMIT};

/// The depth and the step limit.
pub fn limits(goal: Goal) -> String {
    format!("depth {}, {}", goal.depth, steps(goal.steps))
}

/// Within which limits something holds.
pub fn within(goal: Goal) -> String {
    format!("within {}", limits(goal))
}

fn steps(number: u16) -> String {
    let plural = if number == 1 { "" } else { "s" };
    format!("{number} step{plural}")
}

/// What the verdict of a complete list stands for.
pub fn verdict(total: &Total, goal: Goal) -> Vec<String> {
    let begin = format!("{} {}", total.verdict, within(goal));
    let stops = format!(
        "input of depth {} or less stops within {}, off target.",
        goal.depth,
        steps(goal.steps)
    );
    let deeper = "Of deeper inputs nothing is said.";
    let (first, last) = match total.verdict {
        Verdict::None => (format!("every {stops}"), deeper.to_string()),
        _ => (counts(total), format!("Every other {stops} {deeper}")),
    };
    let lines = [
        Some(format!("{begin}: {first}")),
        unknown(total, goal),
        uncovered(total),
        Some(last),
    ];
    lines.into_iter().flatten().collect()
}

/// How many entries reach the target, and how many may.
fn counts(total: &Total) -> String {
    let reach = match total.reach {
        0 => "no entry reaches the target".to_string(),
        1 => "1 entry reaches the target".to_string(),
        n => format!("{n} entries reach the target"),
    };
    match total.unfinished {
        0 => format!("{reach}."),
        1 => format!("{reach}, and 1 is unfinished."),
        n => format!("{reach}, and {n} are unfinished."),
    }
}

/// What is said of unfinished entries, where there are any.
fn unknown(total: &Total, goal: Goal) -> Option<String> {
    let reach = "inputs that complete an unfinished entry reach the target, or run into a missing alternative";
    (total.unfinished != 0).then(|| format!("Whether {reach}, is not known; {}.", more_steps(goal)))
}

/// What is said of missing entries, where there are any.
fn uncovered(total: &Total) -> Option<String> {
    let (entries, whose) = match total.missing {
        0 => return None,
        1 => ("1 entry runs".to_string(), "its"),
        n => (format!("{n} entries run"), "their"),
    };
    Some(format!(
        "{entries} into a missing alternative: no case covers {whose} inputs, which stop there, off target."
    ))
}

fn more_steps(goal: Goal) -> String {
    match goal.steps as usize {
        STEP_LIMIT => format!("{STEP_LIMIT} steps are the most there are"),
        _ => "a larger --steps may tell".to_string(),
    }
}

/// What a list that is cut short after so many entries stands for.
pub fn cut_short(count: usize, goal: Goal) -> String {
    let within = within(goal);
    format!("No verdict {within}: the list is full after {count} entries, and there are more.")
}

/// What the text of a list that is handed in stands for.
pub fn handed_in(goal: Goal) -> String {
    let within = within(goal);
    format!("what is printed speaks for the rule only if its search {within} returned this list")
}

/// What so many names in the list of a rule stand for, which may be cut short.
pub fn named(count: usize, rule: &Rule, full: bool) -> String {
    let within = within(rule.goal());
    let (names, whose) = match count {
        0 if rule.names().is_none() => return "no names: the rule has no record NA".to_string(),
        0 if rule.named_parameters() == 0 => {
            return "no names: no parameter of the source is of the named type".to_string()
        }
        0 => return format!("no names {within}: the list has no entry"),
        1 => ("1 name".to_string(), "its entry"),
        n => (format!("{n} names"), "their entries"),
    };
    match full {
        true => format!("{names} {within}: the list is full, and there are more"),
        false => format!("{names} {within}; {whose} may stand for others too"),
    }
}

/// What the outcome of a run stands for, and how deep its input goes.
pub fn ran(ran: Ran, goal: Goal) -> String {
    let (depth, within) = (ran.depth, within(goal));
    let after = |n| format!("after {} on an input of depth {depth}, {within}", steps(n));
    match ran.outcome {
        Outcome::Reached(n) => format!("reached {}.", after(n)),
        Outcome::Ended(n) => format!("ended off target {}.", after(n)),
        Outcome::Missing(n) => {
            let uncovered = "no case covers the input, which stops there, off target";
            format!("missing an alternative {}: {uncovered}.", after(n))
        }
        Outcome::Unfinished(n) => {
            let unknown = "whether the input reaches the target, or runs into a missing alternative, is not known";
            let more = more_steps(goal);
            format!("unfinished {}: {unknown}; {more}.", after(n))
        }
    }
}
