//! What a file of callgrind counts: lines of costs, each below the function that it belongs to.
use std::collections::HashSet;

/// Instructions and mispredicted conditional branches.
#[derive(Clone, Copy, Debug, Default)]
pub struct Counts {
    pub instructions: i64,
    pub mispredicted: i64,
}

/// The columns of a line of costs, behind its position.
struct Columns {
    instructions: usize,
    mispredicted: usize,
}

/// The columns that the file's line of events names.
fn columns(text: &str) -> Option<Columns> {
    let events = text.lines().find_map(|line| line.strip_prefix("events:"))?;
    let at = |name: &str| events.split_whitespace().position(|event| event == name);
    Some(Columns { instructions: at("Ir")?, mispredicted: at("Bcm")? })
}

/// A function as "(12) name", the first time, or "(12)": its number, and its name if it is there.
fn function(line: &str) -> Option<(&str, &str)> {
    let named = line.strip_prefix("fn=").or_else(|| line.strip_prefix("cfn="))?;
    Some(named.split_once(' ').unwrap_or((named, "")))
}

/// The sums of a file over all functions but those that clear memory; None if the file does not name its columns.
pub fn counts(text: &str) -> Option<Counts> {
    let columns = columns(text)?;
    let (mut sum, mut clearing, mut now, mut called) = (Counts::default(), HashSet::new(), "", false);
    for line in text.lines() {
        if let Some((number, name)) = function(line) {
            if name.contains("memset") {
                clearing.insert(number);
            }
            if line.starts_with("fn=") {
                now = number;
            }
        } else if line.starts_with("calls=") {
            // The next line has the costs of what is called, which are counted there.
            called = true;
        } else if line.starts_with(|c: char| c.is_ascii_digit() || "+-*".contains(c)) {
            if !called && !clearing.contains(now) {
                // Costs of zero at the end of a line are left out.
                let cost = |column: usize| line.split(' ').nth(1 + column).map_or(Some(0), |cost| cost.parse().ok());
                sum.instructions += cost(columns.instructions)?;
                sum.mispredicted += cost(columns.mispredicted)?;
            }
            called = false;
        }
    }
    Some(sum)
}
